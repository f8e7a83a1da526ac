//! Writes the files of examples/.

use example_files::{alarms, bag_table, fluid_monitor};

fn main() -> std::io::Result<()> {
    fluid_monitor::files::EXAMPLE.write(fluid_monitor::files::all())?;
    alarms::files::EXAMPLE.write(alarms::files::all())?;
    bag_table::files::EXAMPLE.write(bag_table::files::all())
}
