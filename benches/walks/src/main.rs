//! Walks all steps of the joint of a table with itself, and prints how many questions that took. `walks N DEGREE ROUNDS`.

#[repr(C)]
#[derive(Default)]
struct WalkAnswer {
    states: u32,
    steps: u64,
    next_steps: u64,
    asked: u64,
}

extern "C" {
    fn mehaldub_walk_joint(n: u32, degree: u32, rounds: u32, answer: *mut WalkAnswer);
}

fn main() {
    let words: Vec<u32> = std::env::args().skip(1).map(|w| w.parse().expect("a number")).collect();
    let mut answer = WalkAnswer::default();
    unsafe { mehaldub_walk_joint(words[0], words[1], words[2], &mut answer) };
    println!(
        "{} states, {} steps, {} next-step questions, {} questions to the parts",
        answer.states, answer.steps, answer.next_steps, answer.asked
    );
}
