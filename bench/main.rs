//! The archive beside the independent implementation, which is the yardstick: the same work, on
//! the same machine, in rounds by turns.

mod captures;
mod grain128a;
mod grainv1;
mod growth;
mod jobs;
mod pieces;
mod probes;
mod rounds;
mod signals;

use rounds::{Pair, ROUNDS, ROUND_TIME};
use tikhoplav::sizes::{CAPTURE_MAX, MESSAGE_MAX};

const KIB: usize = 1024;
/// What streams are timed at.
const PIECE_LENS: [usize; 3] = [4 * KIB, 64, 1];
/// What signals are timed at, in bits.
const WIDTHS: [u32; 3] = [1, 16, 32];
const MESSAGE_LENS: [usize; 5] = [16, 64, KIB, 32 * KIB, MESSAGE_MAX];
/// The clocks of 32 KiB of message.
const CLOCKS: usize = 16 * 32 * KIB;

fn row(name: &str, size: usize, pair: &mut Pair) {
    let ratios = rounds::ratios(pair);
    println!(
        "{name:<26} {size:>7} {:>8.2} {:>8.2}  ({:.2} .. {:.2})",
        ratios.best, ratios.median, ratios.least, ratios.most
    );
}

fn main() {
    heading();
    calls();
    engines();
    grain128a_calls();
    grainv1_calls();
    editions();
    streams();
    opening_to_sealing();
    println!("\nWhat a byte more costs when sealing, times what it costs at the largest size:\n");
    growth::print();
    captures();
    signals();
}

fn heading() {
    println!(
        "Times the yardstick's speed, both at opt-level 3: {ROUNDS} rounds of each by turns, of"
    );
    println!("{ROUND_TIME:?} or one call. The ratio of the best rounds, and the median ratio with its spread.");
    println!(
        "Sealing and opening have an AD of {} bytes.\n",
        jobs::AD_LEN
    );
    println!(
        "{:<26} {:>7} {:>8} {:>8}  (min .. max)",
        "", "", "best", "median"
    );
}

fn calls() {
    for (edition, sealing, opening) in [
        (1, "sealing, bytes", "opening, bytes"),
        (2, "sealing, edition 2, bytes", "opening, edition 2, bytes"),
    ] {
        for size in MESSAGE_LENS {
            row(sealing, size, &mut jobs::sealing(edition, size));
        }
        for size in MESSAGE_LENS {
            row(opening, size, &mut jobs::opening(edition, size));
        }
    }
}

fn grain128a_calls() {
    println!(
        "\nGrain-128a, with a tag of {} bits and without one. The yardstick of sealing, opening and crypt is",
        grain128a::TAG_BITS
    );
    println!("its own sealing, opening and crypt with Grain-128a:");
    for size in MESSAGE_LENS {
        row("sealing, bytes", size, &mut grain128a::sealing(size));
    }
    for size in MESSAGE_LENS {
        row("opening, bytes", size, &mut grain128a::opening(size));
    }
    for size in MESSAGE_LENS {
        row("crypt, bytes", size, &mut grain128a::crypt(size));
    }
    println!("\nCrypt beside the yardstick's sealing of the same message with Grain-128a:");
    for size in MESSAGE_LENS {
        row("crypt, bytes", size, &mut grain128a::crypt_to_sealing(size));
    }
}

fn grainv1_calls() {
    println!("\nGrain v1. The yardstick of crypt is its own crypt with Grain v1:");
    for size in MESSAGE_LENS {
        row("crypt, bytes", size, &mut grainv1::crypt(size));
    }
}

fn captures() {
    println!(
        "\nCaptures, full of frames, all but one or two without data. The yardstick of judging is its own reader:"
    );
    for size in [4 * KIB, CAPTURE_MAX] {
        row("judging, bytes", size, &mut captures::judging(size));
    }
    println!(
        "\nWhat a byte of a capture costs when judging, times what it costs at the largest size:\n"
    );
    captures::print_growth();
    println!("\nPlace and length of all frames of the longest capture, times one judging of it:");
    captures::print_stepping();
}

fn signals() {
    println!("\nSignals, one at each start of the longest message of a frame. The yardstick is its own reader:");
    for width in WIDTHS {
        row(
            "decoding, bits",
            width as usize,
            &mut signals::decoding(width),
        );
    }
}

fn engines() {
    row("start-up, clocks", 384, &mut jobs::start_up());
    row(
        "plain engine, clocks",
        CLOCKS,
        &mut jobs::plain_engine(CLOCKS),
    );
    row("strokes, clocks", CLOCKS, &mut jobs::strokes(CLOCKS));
}

fn editions() {
    println!("\nThe second edition's speed as a part of the first's, both by the archive:");
    for size in MESSAGE_LENS {
        let mut pair = jobs::sealing_second_to_first(size);
        row("sealing, bytes", size, &mut pair);
    }
    for size in MESSAGE_LENS {
        let mut pair = jobs::opening_second_to_first(size);
        row("opening, bytes", size, &mut pair);
    }
}

fn streams() {
    println!(
        "\nThe speed in pieces of so many bytes as a part of the whole-string call's, both by the archive,"
    );
    println!("at {} bytes; checking beside opening:", 32 * KIB);
    for (edition, sealing, checking) in [
        (1, "sealing, bytes", "checking, bytes"),
        (2, "sealing, edition 2, bytes", "checking, edition 2, bytes"),
    ] {
        for size in PIECE_LENS {
            let mut pair = pieces::sealing(edition, 32 * KIB, size);
            row(sealing, size, &mut pair);
        }
        for size in PIECE_LENS {
            let mut pair = pieces::checking(edition, 32 * KIB, size);
            row(checking, size, &mut pair);
        }
    }
}

fn opening_to_sealing() {
    println!(
        "\nOpening's speed as a part of sealing's, at {} bytes:",
        32 * KIB
    );
    println!(
        "{:<34} {:>8.2}",
        "best rounds",
        jobs::opening_to_sealing(32 * KIB)
    );
}
