//! A sensor's thread publishes, and this one reads until it has seen the last record. Neither waits for the other.

fn main() -> Result<(), Box<dyn std::error::Error>> {
    let (mut writer, mut reader) = nidzaru::register([0_u64, 1, 2])?; // low, reading, high
    let sensor = std::thread::spawn(move || (1..=1000).try_for_each(|n| writer.write(&[n, n + 1, n + 2])));
    while reader.number() < 1000 {
        let [low, _, high] = reader.latest();
        assert_eq!(high, low + 2);
    }
    sensor.join().expect("the sensor panicked")?;
    println!("no record was torn");
    Ok(())
}
