use tusqirma::{Refusal, Session};

fn main() -> Result<(), Refusal> {
    let file = [
        0x4E, 0x49, 1, 3, 1, // one input, three gates, one output
        0x4E, 0x47, 1, 0, 2, 0, // gate 1
        0x4E, 0x47, 1, 0, 2, 0, // gate 2
        0x4E, 0x47, 2, 1, 2, 0x0E, 0, // gate 3
        0x4E, 0x4F, 3, // the output is gate 3
    ];
    let mut session = Session::load(&file)?;
    say("verdict, gate 1 to 0", session.verdict(&[(1, 0)]));
    say("verdict, gate 2 to 0", session.verdict(&[(2, 0)]));
    let both = session.verdict(&[(1, 0), (2, 0)]);
    say("verdict, gates 1 and 2 to 0", both);
    say("exchange, gate 1 to 0", session.exchange(1, 0));
    say("exchange, gate 2 to 0", session.exchange(2, 0));
    Ok(())
}

fn say(asked: &str, answer: Result<(), Refusal>) {
    match answer {
        Ok(()) => println!("{asked}: yes"),
        Err(refusal) => println!("{asked}: no, {refusal}"),
    }
}
