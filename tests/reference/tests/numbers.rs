//! Operators 1 to 8 by number, 1 to 7 at their ends, and operator 5 by what it means.

use reference::generator::Generator;
use reference::numbers::operate;
use reference::value::{self, Pointer, Value};

#[test]
fn each_operator_does_what_its_number_says() {
    let operate = |operator, left, right| value::operate(operator, left, right, |_| true);
    let on_7_and_9 = [(1, 16), (2, -2), (3, 63), (4, 0), (5, 1), (6, 1), (7, 0)];
    for (operator, result) in on_7_and_9 {
        let given = operate(operator, Value::Integer(7), Value::Integer(9));
        assert_eq!(given, Ok(Value::Integer(result)), "operator {operator}");
    }
    let pointer = |offset| Value::Pointer(Pointer { name: 2, offset });
    assert_eq!(operate(8, pointer(7), Value::Integer(9)), Ok(pointer(16)));
    assert_eq!(operate(7, pointer(7), pointer(7)), Ok(Value::Integer(1)));
    assert_eq!(operate(7, pointer(7), pointer(9)), Ok(Value::Integer(0)));
}

#[test]
fn overflow_is_43_at_the_first_value_outside_64_bits() {
    assert_eq!(operate(1, i64::MAX - 1, 1), Ok(i64::MAX));
    assert_eq!(operate(1, i64::MAX, 1), Err(43));
    assert_eq!(operate(1, i64::MIN, -1), Err(43));
    assert_eq!(operate(2, i64::MIN, 0), Ok(i64::MIN));
    assert_eq!(operate(2, i64::MIN, 1), Err(43));
    assert_eq!(operate(2, 0, i64::MIN), Err(43));
    assert_eq!(operate(2, -1, i64::MIN), Ok(i64::MAX));
    assert_eq!(operate(3, 1 << 62, 2), Err(43));
    assert_eq!(operate(3, 1 << 62, -2), Ok(i64::MIN));
    assert_eq!(operate(3, i64::MIN, i64::MIN), Err(43));
}

#[test]
fn a_zero_divisor_is_44_for_both_divisions() {
    for left in [i64::MIN, -1, 0, 1, i64::MAX] {
        assert_eq!(operate(4, left, 0), Err(44));
        assert_eq!(operate(5, left, 0), Err(44));
    }
}

#[test]
fn at_most_and_equal_give_1_or_0() {
    assert_eq!(operate(6, 3, 3), Ok(1));
    assert_eq!(operate(6, i64::MIN, i64::MAX), Ok(1));
    assert_eq!(operate(6, 4, 3), Ok(0));
    assert_eq!(operate(7, -1, -1), Ok(1));
    assert_eq!(operate(7, -1, 1), Ok(0));
}

#[test]
fn operator_5_is_exact_at_halves_and_at_the_ends() {
    let cases = [
        (3, 2, 2),
        (-3, 2, -2),
        (3, -2, -2),
        (-3, -2, 2),
        (5, -2, -2),
        (-5, -2, 2),
        (1, 2, 0),
        (-1, 2, 0),
        (3 << 61, 1 << 62, 2),
        (5 << 60, 1 << 61, 2),
        (i64::MAX, 2, 1 << 62),
        (i64::MAX - 2, 2, (1 << 62) - 2),
        (i64::MIN, 2, -(1 << 62)),
        (i64::MIN + 1, 2, -(1 << 62)),
        (i64::MIN + 3, 2, 2 - (1 << 62)),
        (i64::MAX, i64::MIN, -1),
        (i64::MIN, i64::MAX, -1),
        (i64::MIN, i64::MIN, 1),
        ((1 << 62) + 1, i64::MIN, -1),
        (1 << 62, i64::MIN, 0),
        (-(1 << 62), i64::MIN, 0),
        (-(1 << 62) - 1, i64::MIN, 1),
        (i64::MIN, 1, i64::MIN),
    ];
    for (left, right, quotient) in cases {
        assert_eq!(operate(5, left, right), Ok(quotient), "{left} by {right}");
    }
}

/// Within half of the divisor, and even at an exact half.
fn is_nearest(left: i128, right: i128, quotient: i128) -> bool {
    let twice = 2 * (left - quotient * right).abs();
    twice < right.abs() || twice == right.abs() && quotient % 2 == 0
}

/// Whether the exact quotient lies in the middle between two whole numbers.
fn is_half(left: i128, right: i128) -> bool {
    right != 0 && left % right != 0 && 2 * left % right == 0
}

#[test]
fn operator_5_is_the_one_nearest_number_on_every_small_pair() {
    for left in -60_i64..=60 {
        for right in (-25_i64..=25).filter(|&right| right != 0) {
            let quotient = operate(5, left, right).unwrap();
            let nearest =
                |quotient: &i64| is_nearest(left.into(), right.into(), (*quotient).into());
            let all: Vec<i64> = (-61..=61).filter(nearest).collect();
            assert_eq!(all, [quotient], "{left} by {right}");
        }
    }
}

#[test]
fn operator_5_is_nearest_on_seeded_pairs_of_every_size() {
    let mut generator = Generator::new(5);
    let mut halves = 0;
    for _ in 0..200_000 {
        let (left, right) = generator.division();
        let (wide_left, wide_right) = (i128::from(left), i128::from(right));
        match operate(5, left, right) {
            Ok(quotient) => assert!(
                is_nearest(wide_left, wide_right, quotient.into()),
                "{left} by {right} is {quotient}"
            ),
            Err(44) => assert_eq!(right, 0),
            Err(number) => assert_eq!((number, left, right), (43, i64::MIN, -1)),
        }
        halves += u32::from(is_half(wide_left, wide_right));
    }
    assert!(halves >= 20_000, "{halves} exact halves");
}

#[test]
fn operator_4_drops_the_fraction() {
    for (left, right, quotient) in [(7, 2, 3), (-7, 2, -3), (7, -2, -3), (-7, -2, 3), (1, 3, 0)] {
        assert_eq!(operate(4, left, right), Ok(quotient));
    }
    assert_eq!(operate(4, i64::MIN, 1), Ok(i64::MIN));
}
