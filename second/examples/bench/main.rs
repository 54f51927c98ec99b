//! Times the product's calls beside the second program's, on the same inputs
//! in the same run: `tools/bench [PASSES]`.

#[path = "../../tests/common/mod.rs"]
mod common;
mod desk;
mod job;
mod lease_query;
mod lent;
mod lookup;
mod name_option;
mod second_lent;
mod server_list;
mod steady;
mod timer;
mod zone;
mod zones;

/// How often the table is gone through: as often as the argument says.
fn passes() -> Result<usize, String> {
    match std::env::args().nth(1) {
        None => Ok(timer::PASSES),
        Some(word) => match word.parse() {
            Ok(passes) if passes > 0 => Ok(passes),
            _ => Err(format!("bench: no number of passes: {word}")),
        },
    }
}

fn main() -> Result<(), String> {
    let mut table = timer::Table::default();
    for _ in 0..passes()? {
        name_option::run(&mut table);
        server_list::run(&mut table);
        lease_query::run(&mut table);
        desk::run(&mut table);
        zone::run(&mut table);
        job::run(&mut table);
        lent::run(&mut table);
        lookup::run(&mut table);
    }
    table.print();
    Ok(())
}
