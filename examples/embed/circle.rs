//! The circle of circle.c, each step made in three parts by three threads. Prints each agent's position after
//! each step: x,y.
mod crowd;

use crowd::{Agent, Fault, Segment, StepError, is_of_this_version, step, step_part};

const AGENTS: usize = 36;
const THREADS: usize = 3;

const WALLS: [Segment; 2] = [
    Segment { ax: -900, ay: -600, bx: 900, by: -600 },
    Segment { ax: -900, ay: 600, bx: 900, by: 900 },
];

fn agent(k: usize) -> Agent {
    let angle = 2.0 * (-1.0f64).acos() * k as f64 / AGENTS as f64;
    Agent {
        x: (12000.0 * angle.cos()).round() as i32,
        y: (12000.0 * angle.sin()).round() as i32,
        pref_x: (-350.0 * angle.cos()).round() as i32,
        pref_y: (-350.0 * angle.sin()).round() as i32,
        radius: 500,
        speed: 400,
        range: 15000,
        most: 10,
        horizon: 10,
        wall_horizon: 4,
        ..Agent::default()
    }
}

fn step_together(agents: &mut Vec<Agent>) -> Result<(), StepError> {
    let mut moved = agents.clone();
    let each = AGENTS / THREADS;
    let frozen = agents.as_slice();
    std::thread::scope(|scope| {
        let parts: Vec<_> = moved
            .chunks_mut(each)
            .enumerate()
            .map(|(k, part)| scope.spawn(move || step_part(frozen, &WALLS, 0, each * k, part)))
            .collect();
        parts.into_iter().try_for_each(|part| part.join().expect("a part returns"))
    })?;
    *agents = moved;
    Ok(())
}

fn main() {
    assert!(is_of_this_version());
    let mut agents: Vec<Agent> = (0..AGENTS).map(agent).collect();
    let mut alone = agents.clone();
    for _ in 0..100 {
        step_together(&mut agents).expect("the circle is a scenario");
        step(&mut alone, &WALLS, 0).expect("the circle is a scenario");
        assert_eq!(agents, alone);
        for agent in &agents {
            println!("{},{}", agent.x, agent.y);
        }
    }

    // What is refused says why, and changes nothing.
    let fault = Fault { cause: 1, ..Fault::default() };
    assert_eq!(step(&mut agents, &WALLS, 37), Err(StepError::Refused(fault)));
    assert_eq!(agents, alone);
}
