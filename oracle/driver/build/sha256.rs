//! SHA-256 (FIPS 180-4), so that the source can be recognised without a
//! dependency.

/// The first 32 bits of the fractional parts of the roots of the first primes.
fn root_bits(power: u32, prime: u64) -> u32 {
    // floor(prime^(1/power) * 2^32), by trying bits from the top down.
    let mut root = 0u128;
    for bit in (0..36).rev() {
        let trial = root | 1 << bit;
        let (left, right) = match power {
            2 => (trial * trial, u128::from(prime) << 64),
            _ => (trial * trial * trial, u128::from(prime) << 96),
        };
        if left <= right {
            root = trial;
        }
    }
    root as u32
}

fn primes() -> impl Iterator<Item = u64> {
    (2u64..).filter(|number| (2..*number).all(|divisor| number % divisor != 0))
}

pub fn hex_digest(data: &[u8]) -> String {
    let rounds: Vec<u32> = primes().take(64).map(|prime| root_bits(3, prime)).collect();
    let mut state: Vec<u32> = primes().take(8).map(|prime| root_bits(2, prime)).collect();

    let mut message = data.to_vec();
    message.push(0x80);
    while message.len() % 64 != 56 {
        message.push(0);
    }
    message.extend_from_slice(&(data.len() as u64 * 8).to_be_bytes());

    for chunk in message.chunks_exact(64) {
        let mut words: Vec<u32> = chunk
            .chunks_exact(4)
            .map(|bytes| u32::from_be_bytes([bytes[0], bytes[1], bytes[2], bytes[3]]))
            .collect();
        for at in 16..64 {
            let (early, late) = (words[at - 15], words[at - 2]);
            let small = early.rotate_right(7) ^ early.rotate_right(18) ^ (early >> 3);
            let large = late.rotate_right(17) ^ late.rotate_right(19) ^ (late >> 10);
            words.push(
                words[at - 16]
                    .wrapping_add(small)
                    .wrapping_add(words[at - 7])
                    .wrapping_add(large),
            );
        }
        let mut v = state.clone();
        for at in 0..64 {
            let mixed = v[4].rotate_right(6) ^ v[4].rotate_right(11) ^ v[4].rotate_right(25);
            let choice = (v[4] & v[5]) ^ (!v[4] & v[6]);
            let first = v[7]
                .wrapping_add(mixed)
                .wrapping_add(choice)
                .wrapping_add(rounds[at])
                .wrapping_add(words[at]);
            let turned = v[0].rotate_right(2) ^ v[0].rotate_right(13) ^ v[0].rotate_right(22);
            let majority = (v[0] & v[1]) ^ (v[0] & v[2]) ^ (v[1] & v[2]);
            v.rotate_right(1);
            v[4] = v[4].wrapping_add(first);
            v[0] = first.wrapping_add(turned).wrapping_add(majority);
        }
        for (word, new) in state.iter_mut().zip(v) {
            *word = word.wrapping_add(new);
        }
    }
    state.iter().map(|word| format!("{word:08x}")).collect()
}
