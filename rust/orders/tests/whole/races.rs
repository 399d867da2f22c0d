//! The races.
mod biased;
mod drains;
mod line;
mod pool;
mod updates;
mod values;
mod waits;

use orders::turns::{Failed, Play, Played, Turns};

/// Goes through the orders of a play, in which no thread may wait for ever, and prints how many there are.
fn plays<P: Play>(name: &str, switches: usize, play: P) -> Played {
    match Turns::switches(switches).play(play) {
        Ok(played) => {
            println!("orders of {name}, {switches} switches: {} orders, {} steps", played.orders, played.steps);
            played
        }
        Err(Failed::Stuck(schedule)) => panic!("{name}: a wake is lost:\n{}", schedule.join("\n")),
        Err(Failed::Panicked(why, schedule)) => panic!("{name}: {why}:\n{}", schedule.join("\n")),
        Err(Failed::Endless(schedule)) => panic!("{name}: no end:\n{}", schedule[..200].join("\n")),
    }
}

/// A play of one closure for each actor, and one for the end.
struct Closures<T, M, E> {
    make: M,
    acts: Vec<fn(&T)>,
    end: E,
}

impl<T, M, E> Play for Closures<T, M, E>
where
    T: Send + Sync + 'static,
    M: Fn() -> T + Send + Sync + 'static,
    E: Fn(T) + Send + Sync + 'static,
{
    type Parts = T;

    fn actors(&self) -> usize {
        self.acts.len()
    }

    fn parts(&self) -> T {
        (self.make)()
    }

    fn act(&self, parts: &T, actor: usize) {
        self.acts[actor](parts);
    }

    fn end(&self, parts: T) {
        (self.end)(parts);
    }
}

/// Goes through the orders of these actors.
fn race<T: Send + Sync + 'static>(
    name: &str,
    switches: usize,
    make: impl Fn() -> T + Send + Sync + 'static,
    acts: &[fn(&T)],
    end: impl Fn(T) + Send + Sync + 'static,
) -> Played {
    plays(name, switches, Closures { make, acts: acts.to_vec(), end })
}
