use stephylax::{instant_of_date, read_text, sun_list};
type Failure = Box<dyn std::error::Error>;
fn load(planet: &str) -> Result<Vec<u8>, Failure> {
    let text = std::fs::read(format!("data/vsop87d/{planet}.txt"))?;
    let mut packed = vec![0; text.len()];
    let length = read_text(&text, &mut packed)?;
    packed.truncate(length);
    Ok(packed)
}
fn main() -> Result<(), Failure> {
    let (mercury, earth, start) = (load("mercury")?, load("earth")?, instant_of_date(2019, 11, 11, 0)?);
    let mut runs = [0; 1440];
    let length = sun_list(&mercury, &earth, start, 1440, 60, &mut runs)?;
    for run in runs[..length].chunks(2) {
        println!("shut from minute {} to {}", run[0], run[1]);
    }
    Ok(())
}
