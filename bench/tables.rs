//! The tables of the benchmark, as 257 numbers: the count, the masks of true propositions, those of false ones.

/// A table of these entries, masks of true and of false propositions.
pub fn table(entries: &[(u32, u32)]) -> Vec<u32> {
    let mut numbers = vec![0; 257];
    numbers[0] = entries.len() as u32;
    for (i, &(trues, falses)) in entries.iter().enumerate() {
        numbers[1 + i] = trues;
        numbers[129 + i] = falses;
    }
    numbers
}

/// For the calls that take no table.
pub fn none() -> Vec<u32> {
    table(&[])
}

/// 0 is true; 0 is false.
pub fn two() -> Vec<u32> {
    table(&[(1, 0), (0, 1)])
}

/// 8 entries of 3 literals over 8 propositions.
pub fn eight() -> Vec<u32> {
    table(&[(0x0b, 0), (0x02, 0x14), (0x0c, 0x20), (0x48, 0x10), (0x30, 0x80), (0x20, 0x41), (0xc2, 0), (0x80, 0x05)])
}

/// The entry of 0 to 3, then `count` entries of three literals over 28 to 31, at most 32.
pub fn markers(count: usize) -> Vec<u32> {
    let mut entries = vec![(0xf, 0)];
    for i in 0..count as u32 {
        let named = (0xf ^ 1 << (i / 8)) << 28;
        // The bits of i are dealt to the three propositions.
        let mut trues = 0;
        let mut bit = 0;
        for p in 28..32 {
            if named >> p & 1 == 1 {
                trues |= (i >> bit & 1) << p;
                bit += 1;
            }
        }
        entries.push((trues, named & !trues));
    }
    table(&entries)
}

/// The first `count` of the 128 worlds of propositions 0 to 6.
pub fn counted(count: u32) -> Vec<u32> {
    table(&(0..count).map(|i| (i, 127 & !i)).collect::<Vec<_>>())
}

/// The first `count` of 128 worlds of 32 propositions: 0 to 12 are true, 13 to 18 are free, 19 to 31 are all alike. From the second on they
/// have 156 clauses for the last 13 propositions, and some more for the others.
pub fn alike(count: u32) -> Vec<u32> {
    let world = |i: u32| 0x1fff | (i / 2) << 13 | (i % 2 * 0x1fff) << 19;
    table(&(0..count).map(|i| (world(i), !world(i))).collect::<Vec<_>>())
}

/// Two entries of 16 literals: 256 clauses.
pub fn halves() -> Vec<u32> {
    table(&[(0xffff, 0), (0xffff_0000, 0)])
}

/// 100 entries that have 256 clauses.
pub fn hundred() -> Vec<u32> {
    table(&HUNDRED)
}

#[rustfmt::skip]
const HUNDRED: [(u32, u32); 100] = [
    (0x01d01908, 0x322a2496), (0x21c01988, 0x122a2416), (0x00d01909, 0x322a2496), (0x08d2190b, 0x32282494), (0x01d01918, 0x322a2486),
    (0x08d2190f, 0x32282480), (0x28d2190f, 0x12282480), (0x28d2090f, 0x12283480), (0x01c01919, 0x322a2486), (0x2892090f, 0x12683480),
    (0x28d00907, 0x122a3480), (0x00d00909, 0x322a3496), (0x289a090f, 0x12603080), (0x00d00109, 0x322a3c96), (0x20d0090b, 0x122a3494),
    (0x08d21107, 0x12282c88), (0x01f01908, 0x320a2496), (0x3892090f, 0x02683480), (0x0892180b, 0x32282594), (0x28d2098f, 0x12283400),
    (0x01f01918, 0x320a2486), (0x24d2090f, 0x1a283480), (0x00d0010b, 0x122a3c94), (0x02d01918, 0x312a2486), (0x00d01908, 0x332a2496),
    (0x20d2090b, 0x12283494), (0x24da090f, 0x1a203480), (0x28d20d0f, 0x12283080), (0x24d20907, 0x1a283488), (0x28d20907, 0x12283488),
    (0x20d00d0f, 0x1a2a3080), (0x00d0110b, 0x122a2c94), (0x38920d0f, 0x02683080), (0x28d2110f, 0x12282c80), (0x0892180f, 0x32282590),
    (0x00f00109, 0x320a3c96), (0x24d0090f, 0x1a2a3480), (0x00d0110f, 0x122a2c90), (0x00f01908, 0x330a2496), (0x0892190f, 0x32682480),
    (0x08d2194a, 0x32282494), (0x20d2090f, 0x12283490), (0x04d01908, 0x322a2496), (0x0cd2110f, 0x32282480), (0x0cd2100f, 0x32282580),
    (0x28d2190b, 0x12282494), (0x08d2190a, 0x32282495), (0x04d01108, 0x322a2c96), (0x28d04d0f, 0x122a3080), (0x20d20d0f, 0x1a283080),
    (0x20d0098b, 0x122a3414), (0x20d0090f, 0x122a2490), (0x20d00109, 0x122a3c96), (0x20d00d0b, 0x1a2a3084), (0x20d20917, 0x12283480),
    (0x28d0098f, 0x122a3400), (0x28d20d07, 0x12283088), (0x08d0190f, 0x322a2480), (0x01d00918, 0x322a3486), (0x0890190f, 0x326a2480),
    (0x20d20117, 0x12283c80), (0x20d0091f, 0x122a2080), (0x24d00907, 0x1a2a3488), (0x0892194a, 0x32682494), (0x28d20107, 0x12283c88),
    (0x20d00d0b, 0x122a3094), (0x00d01108, 0x332a2c96), (0x24d20d07, 0x1a283088), (0x00d41109, 0x322a2c96), (0x24d00d07, 0x1a2a3088),
    (0x0892190a, 0x326824d4), (0x04f01908, 0x320a2496), (0x20d2010b, 0x12283c94), (0x20d00917, 0x122a3480), (0x28d2198f, 0x12282400),
    (0x01c01918, 0x323a2486), (0x20d0030f, 0x122a2c90), (0x28da0d07, 0x12203088), (0x00d08909, 0x320a3496), (0x00d00919, 0x322a3486),
    (0x20d00909, 0x122a3496), (0x28d2090b, 0x12203484), (0x28d0190f, 0x122a2480), (0x28d2098b, 0x12203404), (0x28d2190a, 0x12282495),
    (0x2892190b, 0x12682494), (0x00d0010f, 0x122a3c90), (0x48d2190a, 0x322824d4), (0x00d0190b, 0x322a2494), (0x20d2090b, 0x1a203484),
    (0x28d21987, 0x12282408), (0x38d2098b, 0x02283400), (0x28d2191b, 0x12282484), (0x20d0092f, 0x122a2410), (0x00d0190f, 0x122a2490),
    (0x00d01108, 0x362a2c96), (0x20d0099b, 0x122a3404), (0x20d3110f, 0x12282c80), (0x2cd0010f, 0x122a2c90), (0x24d0190f, 0x1a2a2480),
];
