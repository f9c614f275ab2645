# crates/dex_samples/src/arena.rt borrow-e0505 program_tests
$a\
\
/// How many classes a program has that lies in an arena of its own, counted when the arena has ended.\
pub fn class_count(alloc: Global, classes: &[program_types::Class<'_>]) -> Result<usize, Fault> {\
    let arena = Bump::new(alloc);\
    let program = program_types::Program {\
        classes: arena.try_alloc_slice_copy(classes)?,\
    };\
    drop(arena);\
    Ok(program.classes.len())\
}
