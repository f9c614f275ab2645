# crates/dex_samples/src/arena.rt borrow-e0505 program_tests
/^    let first = placed.units.first().copied();$/d
s/^    Ok(first)$/    Ok(placed.units.first().copied())/
