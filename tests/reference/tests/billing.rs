//! Change j by hand: charges, totals, every refusal and its place in the order, on numbers and on
//! bytes.

use reference::billing::{
    bill, charge, sock_bill, Bill, ENGINES, HIGHEST_RATE, LIST_UNFIT, MOST_REPLIES, OPERATIONS,
    RATE_TOO_HIGH,
};

const RATES: [u32; OPERATIONS] = [250; OPERATIONS];

fn refused(number: u8) -> Bill {
    Bill { number, totals: [0; ENGINES] }
}

fn with_rate(operation: usize, rate: u32) -> [u32; OPERATIONS] {
    let mut rates = RATES;
    rates[operation] = rate;
    rates
}

fn bytes(numbers: &[u32]) -> Vec<u8> {
    numbers.iter().flat_map(|number| number.to_be_bytes()).collect()
}

#[test]
fn a_charge_is_rounded_up() {
    let cases = [
        (0, HIGHEST_RATE, 0),
        (u32::MAX, 0, 0),
        (1, 1, 1),
        (999, 1, 1),
        (1000, 1, 1),
        (1001, 1, 2),
        (2000, 250, 500),
        (2001, 250, 501),
        (2004, 250, 501),
        (2005, 250, 502),
        (0x8000_0000, 1, 2_147_484),
        (u32::MAX, 1, 4_294_968),
        (u32::MAX, HIGHEST_RATE, 4_294_967_295_000),
    ];
    for (litres, rate, cents) in cases {
        assert_eq!(charge(litres, rate), cents, "{litres} litres at {rate}");
    }
}

#[test]
fn each_reply_is_rounded_by_itself_and_goes_to_its_engine() {
    let mut rates = with_rate(6, 1);
    rates[63] = HIGHEST_RATE;
    let list = [6, 2, 1, 6, 2, 1, 0, 7, 4, 63, 0, 3, 6, 7, u32::MAX];
    let totals = [3000, 0, 2, 0, 0, 0, 0, 1 + 4_294_968];
    assert_eq!(bill(&rates, &list), Bill { number: 0, totals });
}

#[test]
fn an_empty_list_is_a_bill_of_zeros() {
    assert_eq!(bill(&RATES, &[]), Bill { number: 0, totals: [0; ENGINES] });
}

#[test]
fn the_greatest_bill_has_all_its_cents() {
    let list = [63, 7, u32::MAX].repeat(MOST_REPLIES);
    let answer = bill(&[HIGHEST_RATE; OPERATIONS], &list);
    assert_eq!(answer.number, 0);
    assert_eq!(answer.totals, [0, 0, 0, 0, 0, 0, 0, 281_470_681_677_825_000]);
}

#[test]
fn every_refusal_has_its_number() {
    let high = with_rate(9, HIGHEST_RATE + 1);
    let cases: [(&[u32; OPERATIONS], Vec<u32>, u8); 9] = [
        (&high, vec![], RATE_TOO_HIGH),
        (&high, vec![8, 0, 1], RATE_TOO_HIGH),
        (&high, vec![64, 0], RATE_TOO_HIGH),
        (&RATES, vec![0], LIST_UNFIT),
        (&RATES, vec![0, 0, 0, 0, 0], LIST_UNFIT),
        (&RATES, vec![64, 0, 1], LIST_UNFIT),
        (&RATES, vec![0, 0, 1, 0, 8, 1], LIST_UNFIT),
        (&RATES, vec![u32::MAX, u32::MAX, 0], LIST_UNFIT),
        (&RATES, vec![0; 3 * (MOST_REPLIES + 1)], LIST_UNFIT),
    ];
    for (rates, list, number) in cases {
        assert_eq!(bill(rates, &list), refused(number), "{} numbers", list.len());
    }
}

#[test]
fn bytes_are_numbers_with_the_high_byte_first() {
    let rates = bytes(&with_rate(1, 1000));
    let mut totals = [0xA5; 67];
    let replies = bytes(&[1, 3, 0x0102_0304, 1, 3, 0xFFFF_FFFF]);
    assert_eq!(sock_bill(&rates, &replies, &mut totals), 0);
    let mut expected = [0; 67];
    expected[24..32].copy_from_slice(&[0, 0, 0, 1, 1, 2, 3, 3]);
    expected[64..].fill(0xA5);
    assert_eq!(totals, expected);
}

#[test]
fn refusals_on_bytes_write_nothing() {
    let rates = bytes(&RATES);
    let high = bytes(&with_rate(63, HIGHEST_RATE + 1));
    let reply = bytes(&[0, 0, 1]);
    let cases: [(&[u8], &[u8], usize, u8); 12] = [
        (&rates[..255], &reply, 64, RATE_TOO_HIGH),
        (&rates[..252], &reply, 64, RATE_TOO_HIGH),
        (&[&rates[..], &[0]].concat(), &reply, 64, RATE_TOO_HIGH),
        (&[], &[], 0, RATE_TOO_HIGH),
        (&high, &reply, 64, RATE_TOO_HIGH),
        (&high, &reply[..11], 63, RATE_TOO_HIGH),
        (&rates, &reply[..11], 64, LIST_UNFIT),
        (&rates, &reply[..8], 64, LIST_UNFIT),
        (&rates, &[&reply[..], &[0]].concat(), 64, LIST_UNFIT),
        (&rates, &reply, 63, LIST_UNFIT),
        (&rates, &[], 0, LIST_UNFIT),
        (&rates, &bytes(&[0, 8, 1]), 0, LIST_UNFIT),
    ];
    for (rates, replies, room, number) in cases {
        let mut totals = vec![0x5A; room];
        let answer = sock_bill(rates, replies, &mut totals);
        assert_eq!(answer, number, "{}, {}, {room} bytes", rates.len(), replies.len());
        assert!(totals.iter().all(|byte| *byte == 0x5A), "a refusal wrote");
    }
}
