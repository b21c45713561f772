// The divisor for a rate: known answers, the ends of the ranges, and a search over all divisors.
use tl16c750::{divisor_for, Picked, Refusal};

const MOST_CLOCK: u32 = 16_000_000;
const MOST_RATE: u32 = 1_000_000;

#[test]
fn known_answers() {
    for (clock, rate, divisor, error) in [
        (3_072_000, 7200, 27, -12345),
        (24_000, 1000, 1, 500_000), // 2 is as near
        (MOST_CLOCK, 1, 65535, 14_259_021),
        (1, MOST_RATE, 1, -999_999),
        (15_999_999, MOST_RATE, 1, 0), // of -0.06
        (MOST_CLOCK, MOST_RATE, 1, 0),
        (1, 1, 1, -937_500),
    ] {
        let picked = Picked { divisor, error };
        assert_eq!(divisor_for(clock, rate), Ok(picked), "{clock} {rate}");
    }
}

#[test]
fn outside_is_refused() {
    let clocks = [0, MOST_CLOCK + 1, u32::MAX];
    let rates = [0, MOST_RATE + 1, u32::MAX];
    for clock in clocks {
        for rate in rates.into_iter().chain([1, MOST_RATE]) {
            assert_eq!(divisor_for(clock, rate), Err(Refusal::BAD_RATE));
        }
    }
    for rate in rates {
        for clock in [1, MOST_CLOCK] {
            assert_eq!(divisor_for(clock, rate), Err(Refusal::BAD_RATE));
        }
    }
}

// The answer is that of a search over all divisors; of those as near the first stands.
fn search(clock: u32, rate: u32) {
    let exact = |divisor: u32| 16 * i64::from(divisor) * i64::from(rate);
    let difference = |divisor| i64::from(clock) - exact(divisor);
    let divisor = (1..=65535)
        .min_by_key(|&divisor| difference(divisor).abs())
        .unwrap();
    let error = (difference(divisor) * 1_000_000 / exact(divisor)) as i32;
    let picked = Picked { divisor, error };
    assert_eq!(divisor_for(clock, rate), Ok(picked), "{clock} {rate}");
}

#[test]
fn the_chart_is_that_of_a_search() {
    for clock in [1_843_200, 3_072_000, 8_000_000] {
        for rate in [
            50, 75, 110, 150, 300, 600, 1200, 1800, 2000, 2400, 3600, 4800, 7200, 9600, 19200,
            38400, 56000, 57600, 115_200, 921_600,
        ] {
            search(clock, rate);
        }
    }
}

// Clocks in the middle between a divisor and the next, and those beside.
#[test]
fn ties_are_those_of_a_search() {
    for rate in [1, 2, 3, 7, 110, 7200, 115_200, 999_999, MOST_RATE] {
        for divisor in [0, 1, 2, 27, 857, 4096, 65533, 65534, 65535] {
            let middle = (16 * divisor + 8) * u64::from(rate);
            for clock in (middle - 1..=middle + 1).filter(|&clock| clock <= MOST_CLOCK.into()) {
                search(clock as u32, rate);
            }
        }
    }
}
