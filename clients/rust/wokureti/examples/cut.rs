//! Repairs a stream and cuts it: `cargo run --example cut` over clip.ivf.
use wokureti::{Cause, Fault, Node, Script, Session};

fn main() -> Result<(), Box<dyn std::error::Error>> {
    let mut session = Session::open("clip.ivf")?;
    for number in 0..session.count()?.frames {
        match session.frame(number) {
            Ok(frame) => println!("{number}: {frame:?}, first sample {}", frame.y[0]),
            Err(Fault::Refused(refused)) => match (refused.cause, refused.packet) {
                (Cause::Packet(_), Some(packet)) => {
                    println!("{number}: {refused}");
                    session.hold(packet)?;
                    session.delete(packet + 1)?;
                }
                _ => return Err(refused.into()),
            },
            Err(fault) => return Err(fault.into()),
        }
    }
    std::fs::write("repaired.ivf", session.save(true)?)?;

    let mut script = Script::new();
    let opening = script.trim(Node::SOURCE_0, 0, 10);
    let ending = script.trim(Node::SOURCE_0, 38, 10);
    script.splice(opening, ending);
    session.set_script(&script)?;
    std::fs::write("cut.ivf", session.export(true)?)?;
    println!("{} frames", session.frames(..).filter_map(Result::ok).count());
    Ok(())
}
