//! The order of hand-outs (docs/RULES.md, "Steps" and "Deciding steps"), read off the jobs in the queue and the answers of
//! gets alone.

/// A job that waits.
#[derive(Clone, Copy, Debug)]
struct Waiting {
    job: usize,
    minutes: u32,
    /// The number of the hand-out that is due to it, from 1, while no job of more minutes enters.
    due: usize,
}

#[derive(Clone, Debug, Default)]
pub struct HandOuts {
    /// In the order of their entry into the queue.
    waiting: Vec<Waiting>,
    /// How many jobs were handed out.
    done: usize,
}

impl HandOuts {
    /// Takes the jobs in the queue just after an item, in the order of their entry, and the job that it handed out.
    /// Says what is wrong with them.
    pub fn take(
        &mut self,
        handed_out: Option<usize>,
        queue: impl Iterator<Item = usize>,
        minutes: impl Fn(usize) -> u32,
    ) -> Option<String> {
        let fault = handed_out.and_then(|job| self.hand_out(job));
        let mut queue = queue.fuse();
        let stay = self.waiting.iter().all(|waiting| queue.next() == Some(waiting.job));
        queue.for_each(|job| self.enter(job, minutes(job)));
        fault.or_else(|| (!stay).then(|| "a waiting job lost its place in the queue".into()))
    }

    /// A job with k others before it gets the (k + 1)th hand-out from here, and one of fewer minutes now has one more
    /// before it.
    fn enter(&mut self, job: usize, minutes: u32) {
        let before = self.waiting.iter().filter(|waiting| waiting.minutes >= minutes).count();
        self.waiting.iter_mut().filter(|waiting| waiting.minutes < minutes).for_each(|waiting| waiting.due += 1);
        self.waiting.push(Waiting { job, minutes, due: self.done + before + 1 });
    }

    fn hand_out(&mut self, job: usize) -> Option<String> {
        self.done += 1;
        let place = match self.waiting.iter().position(|waiting| waiting.job == job) {
            Some(place) => place,
            None => return Some(format!("job {job} was handed out and did not wait")),
        };
        let Waiting { minutes, due, .. } = self.waiting.remove(place);
        let (earlier, later) = self.waiting.split_at(place);
        let comes_before = earlier
            .iter()
            .find(|other| other.minutes >= minutes)
            .or_else(|| later.iter().find(|other| other.minutes > minutes));
        if let Some(other) = comes_before {
            return Some(format!("job {job} of {minutes} minutes was handed out before {other:?}"));
        }
        (due != self.done).then(|| format!("job {job} got hand-out {}, and {due} was due to it", self.done))
    }
}

#[cfg(test)]
mod tests {
    use super::*;

    /// Jobs 0, 1, 2 and 3 wait, with these minutes.
    fn four() -> HandOuts {
        let mut hand_outs = HandOuts::default();
        assert_eq!(hand_outs.take(None, 0..4, minutes), None);
        hand_outs
    }

    fn minutes(job: usize) -> u32 {
        [1, 5, 5, 2, 9, 5][job]
    }

    #[test]
    fn the_order_is_kept() {
        let mut hand_outs = four();
        assert_eq!(hand_outs.take(Some(1), [0, 2, 3].into_iter(), minutes), None);
        assert_eq!(hand_outs.take(None, [0, 2, 3, 4, 5].into_iter(), minutes), None);
        let rest = [(4, vec![0, 2, 3, 5]), (2, vec![0, 3, 5]), (5, vec![0, 3]), (3, vec![0]), (0, vec![])];
        for (job, queue) in rest {
            assert_eq!(hand_outs.take(Some(job), queue.into_iter(), minutes), None);
        }
    }

    #[test]
    fn faults_are_seen() {
        assert!(four().take(Some(0), 1..4, minutes).is_some(), "a lighter job");
        assert!(four().take(Some(2), [0, 1, 3].into_iter(), minutes).is_some(), "a later one of equal minutes");
        assert!(four().take(Some(4), 0..4, minutes).is_some(), "one that does not wait");
        assert!(four().take(None, 1..4, minutes).is_some(), "a place is lost");
        assert!(four().take(None, [1, 0, 2, 3].into_iter(), minutes).is_some(), "two are exchanged");
    }
}
