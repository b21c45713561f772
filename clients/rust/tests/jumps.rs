// Ticks by jumps: known numbers of jumps; on all small clocks and on drawn states the state of single ticks,
// the answer of run, and the jumps counted tick by tick; the largest number of ticks.
use tl16c750::{Baud, JumpRan, Refusal, Uart, LCR, THR};

const MOST_DIVISOR: u32 = 65535;
const FRAME_PULSES: u32 = 160; // start, eight data bits, stop
const DIVISORS: [u32; 5] = [65536, 1000, 16, 4, 2]; // those drawn are below

// Eight bits, no parity, one stop bit; a byte waits in character mode.
fn waiting(divisor: u32, k: u32) -> Uart {
    let mut uart = Uart::fresh();
    uart.state.baud = Baud { divisor, k };
    uart.write(LCR, 0x03).unwrap();
    uart.write(THR, b'A').unwrap();
    uart
}

// The jumps of n single ticks: a tick that is begun with k at 1 is a pulse, and ends a jump.
fn counted(mut uart: Uart, n: u32) -> Result<u32, Refusal> {
    let mut jumps = 0;
    let mut unfinished = false;
    for _ in 0..n {
        unfinished = uart.state.baud.k != 1;
        jumps += u32::from(!unfinished);
        uart.tick()?;
    }
    Ok(jumps + u32::from(unfinished))
}

// What must hold of every answer, but for the number of jumps, which is answered with that of run.
fn jumped(uart: Uart, n: u32) -> Result<(u32, JumpRan), Refusal> {
    let (mut ticked, mut jumped, mut run, mut jump_run) = (uart, uart, uart, uart);
    let baud = uart.state.baud;
    ticked.ticks(n)?;
    let jumps = jumped.jump(n)?;
    assert_eq!(jumped, ticked);
    let ran = jump_run.jump_run(n)?;
    assert_eq!(ran.used, run.run(n)?, "{baud:?} {n}");
    assert_eq!(jump_run, run);
    assert!(ran.jumps <= jumps, "{baud:?} {n}");
    if baud.divisor > 0 {
        assert!(jumps <= 2 + n / baud.divisor, "{baud:?} {n}");
    }
    Ok((jumps, ran))
}

// The same, and the jumps are those counted: the ticks that run used.
fn check_counted(uart: Uart, n: u32) -> Result<u32, Refusal> {
    let (jumps, JumpRan { used, jumps: made }) = jumped(uart, n)?;
    let baud = uart.state.baud;
    assert_eq!(jumps, counted(uart, n)?, "{baud:?} {n}");
    assert_eq!(made, counted(uart, used)?, "{baud:?} {n}");
    Ok(used)
}

#[test]
fn known_numbers() -> Result<(), Refusal> {
    for (n, jumps) in [(0, 0), (2, 1), (3, 1), (4, 2), (8, 2), (9, 3)] {
        assert_eq!(waiting(5, 3).jump(n)?, jumps);
        assert_eq!(waiting(5, 3).jump_run(n)?, JumpRan { used: n, jumps });
    }
    Ok(())
}

#[test]
fn an_empty_transmitter_makes_none_and_divisor_0_one() -> Result<(), Refusal> {
    let none = JumpRan { used: 0, jumps: 0 };
    let mut empty = Uart::fresh();
    empty.state.baud = Baud { divisor: 5, k: 3 };
    for n in [0, 1, u32::MAX] {
        let jumps = u32::from(n > 0);
        let all = JumpRan { used: n, jumps };
        assert_eq!(empty.jump_run(n)?, none);
        assert_eq!(jumped(Uart::fresh(), n)?, (jumps, none));
        assert_eq!(jumped(waiting(0, 0), n)?, (jumps, all));
    }
    Ok(())
}

#[test]
fn small_clocks() -> Result<(), Refusal> {
    for divisor in 0..=7 {
        for k in divisor.min(1)..=divisor {
            for n in 0..=40 {
                check_counted(waiting(divisor, k), n)?;
            }
        }
    }
    Ok(())
}

#[test]
fn all_ticks_of_32_bits() -> Result<(), Refusal> {
    for (k, most) in [(1, 65538), (MOST_DIVISOR, 65537)] {
        let used = k + FRAME_PULSES * MOST_DIVISOR;
        let jumps = 1 + FRAME_PULSES;
        let ran = JumpRan { used, jumps };
        assert_eq!(jumped(waiting(MOST_DIVISOR, k), u32::MAX)?, (most, ran));
    }
    Ok(())
}

// States that writes, SIN and ticks lead to, with clocks of every size.
#[test]
fn drawn_states() -> Result<(), Refusal> {
    let mut x = 1u32;
    let mut below = |most: u32| {
        x = x.wrapping_mul(1664525).wrapping_add(1013904223);
        (x >> 8) % most
    };
    let mut uart = Uart::fresh();
    let (mut none, mut some, mut all) = (0, 0, 0);
    for turn in 0..600 {
        for _ in 0..6 {
            uart.write(below(8) as u8, below(256) as u8)?;
            uart.set_sin(below(2) as u8)?;
            uart.ticks(below(500))?;
        }
        uart.write(THR, below(256) as u8)?;
        let divisor = below(DIVISORS[turn % DIVISORS.len()]);
        let k = if divisor > 0 { 1 + below(divisor) } else { 0 };
        uart.state.baud = Baud { divisor, k };
        let n = 1 + below(2000);
        match check_counted(uart, n)? {
            0 => none += 1,
            used if used < n => some += 1,
            _ => all += 1,
        }
        jumped(uart, below(2000) * (1 + divisor))?;
    }
    assert!(none.min(some).min(all) > 60, "{none} {some} {all}");
    Ok(())
}
