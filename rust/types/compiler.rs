//! The numbers that are the compiler's. At 64 bits they are those of the program itself. For 32 bits the same checks
//! are built twice: for a machine of 32 bits, as a program that compares nothing and prints each such number (`facts`),
//! and for this one, which reads them in the same order in the place of its own (`bits32`).

/// A number that the compiler gave.
#[cfg(not(any(facts, bits32)))]
pub fn compiler(number: usize) -> usize {
    number
}

#[cfg(facts)]
pub fn compiler(number: usize) -> usize {
    println!("{number}");
    number
}

#[cfg(bits32)]
pub fn compiler(_: usize) -> usize {
    NUMBERS.lock().unwrap().next().expect("more numbers are asked for than there are").parse().unwrap()
}

#[cfg(bits32)]
static NUMBERS: std::sync::LazyLock<std::sync::Mutex<std::str::Lines<'static>>> =
    std::sync::LazyLock::new(|| std::sync::Mutex::new(include_str!(env!("FACTS")).lines()));

/// Whether each number was asked for.
pub fn all_taken() -> bool {
    #[cfg(bits32)]
    return NUMBERS.lock().unwrap().next().is_none();
    #[cfg(not(bits32))]
    true
}
