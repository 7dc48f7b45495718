//! Any steps on random lent tables in form, beside ledgers sound and damaged: none panics, refusals
//! change no word, the table stays in form and a sound ledger sound, each step writes only the words that
//! its rule names, and checkpoints are forced where the gap asks for them.

use reference::generate::{
    damaged_ledger, dispatch_table, gap, gapped_table, named, nearly_full_ledger, senseless, set,
    set_table, sound_ledger, Random,
};
use reference::ledger::is_sound;
use reference::machine::{step, Answer, Command};
use reference::table::{in_form, state, Message, Place, Table, DESK, INCARNATIONS};
use std::collections::BTreeSet;

/// The table with every word that the step may write made equal to that of the table after it.
fn with_what_may_be_written(
    before: &[u32],
    after: &[u32],
    command: Command,
    answer: Answer,
) -> Vec<u32> {
    if matches!(command, Command::Open { .. }) {
        return after.to_vec();
    }
    let mut words = before.to_vec();
    let mut copier = Copier {
        from: Table::new(after).expect("the right length"),
        to: Table::new(&mut words[..]).expect("the right length"),
    };
    copier.step(command, answer);
    words
}

/// Copies words of one table to another.
struct Copier<'a> {
    from: Table<&'a [u32]>,
    to: Table<&'a mut [u32]>,
}

impl Copier<'_> {
    /// All that the step may have written.
    fn step(&mut self, command: Command, answer: Answer) {
        match command {
            Command::SetDegree { controller, .. } => self.degree(controller as usize),
            Command::SetGap { gap } => self.to.set_gap(gap),
            Command::Log { controller, .. } | Command::Checkpoint { controller } => {
                self.logging(controller as usize);
            }
            Command::Tell { owner, holder } => {
                for incarnation in 0..INCARNATIONS as u32 {
                    self.known(holder as usize, owner as usize, incarnation);
                }
            }
            Command::Crash { controller } => {
                let c = controller as usize;
                self.end(c, c, self.to.controller(c).incarnation);
                self.new_start(c);
            }
            Command::Hear {
                hearer,
                crashed,
                incarnation,
            } => {
                self.end(hearer as usize, crashed as usize, incarnation);
                self.known(hearer as usize, crashed as usize, incarnation);
                if matches!(answer, Answer::Rolled { .. }) {
                    self.rollback(hearer as usize);
                }
            }
            Command::ReleaseSet { messages } if matches!(answer, Answer::SetReleased { .. }) => {
                messages.iter().for_each(|&message| self.let_out(message));
            }
            Command::Dispatch => {
                self.message(answer);
                self.served(answer);
            }
            _ => self.message(answer),
        }
    }

    fn degree(&mut self, c: usize) {
        let mut counts = self.to.controller(c);
        counts.degree = self.from.controller(c).degree;
        self.to.set_controller(c, counts);
    }

    fn known(&mut self, holder: usize, owner: usize, incarnation: u32) {
        let word = self.from.known(holder).word(owner, incarnation);
        self.to.set_known(holder, owner, incarnation, word);
    }

    fn end(&mut self, holder: usize, owner: usize, incarnation: u32) {
        let word = self.from.ends(holder).word(owner, incarnation);
        self.to.set_end(holder, owner, incarnation, word);
    }

    /// What a send, a release or a delivery writes.
    fn message(&mut self, answer: Answer) {
        match answer {
            Answer::Sent { message } => {
                self.to.set_sent(message);
                self.to.set_message(message, &self.from.message(message));
            }
            Answer::Released { message, .. } => self.let_out(message),
            Answer::Dropped { message, .. } => self.to.set_state(message, state::DROPPED),
            Answer::Delivered { message, .. } => {
                self.to.set_state(message, state::DELIVERED);
                self.new_interval(self.to.message(message).receiver as usize);
            }
            _ => {}
        }
    }

    /// Whom the dispatcher has served.
    fn served(&mut self, answer: Answer) {
        if let Answer::Delivered { message, .. } | Answer::Dropped { message, .. } = answer {
            self.to.set_served(self.to.message(message).receiver);
        }
    }

    /// The state and the vector of a message that was let out, by itself or in a set.
    fn let_out(&mut self, message: u32) {
        let state = match self.to.message(message).receiver {
            DESK => state::PUBLISHED,
            _ => state::RELEASED,
        };
        let record = Message {
            state,
            vector: self.from.message(message).vector,
            ..self.to.message(message)
        };
        self.to.set_message(message, &record);
    }

    /// What a delivery writes of its receiver: the next place and the live count. If the place is flagged,
    /// its checkpoint was forced, and has logged it and all before it.
    fn new_interval(&mut self, receiver: usize) {
        let mut counts = self.to.controller(receiver);
        let place = counts.live as usize;
        counts.live += 1;
        let record = self.from.place(receiver, place);
        if record.flag == 1 {
            counts.stable = counts.live;
            let (incarnation, stable) = (counts.incarnation, counts.stable);
            self.to.set_known(receiver, receiver, incarnation, stable);
        }
        self.to.set_controller(receiver, counts);
        self.to.set_place(receiver, place, &record);
    }

    /// The stable count, the own known word, and the flag of the newest place.
    fn logging(&mut self, c: usize) {
        let mut counts = self.to.controller(c);
        counts.stable = self.from.controller(c).stable;
        self.to.set_controller(c, counts);
        self.known(c, c, counts.incarnation);
        let place = counts.live as usize - 1;
        let record = Place {
            flag: self.from.place(c, place).flag,
            ..self.to.place(c, place)
        };
        self.to.set_place(c, place, &record);
    }

    /// What a rollback logs in the incarnation that it ends, and a new start.
    fn rollback(&mut self, hearer: usize) {
        self.known(hearer, hearer, self.to.controller(hearer).incarnation);
        self.new_start(hearer);
    }

    /// What starting anew writes: counts but the degree, the own known word of the new incarnation, the
    /// places above the kept ones, and states of messages.
    fn new_start(&mut self, c: usize) {
        let mut counts = self.from.controller(c);
        let (kept, live) = (counts.live - 1, self.to.controller(c).live);
        self.states(c, kept);
        counts.degree = self.to.controller(c).degree;
        self.to.set_controller(c, counts);
        self.known(c, c, counts.incarnation);
        for place in kept..live.max(counts.live) {
            let record = self.from.place(c, place as usize);
            self.to.set_place(c, place as usize, &record);
        }
    }

    /// The states of the causes of intervals above the kept ones, but for those for the desk, and of held
    /// messages sent from there.
    fn states(&mut self, c: usize, kept: u32) {
        let removed = kept..self.to.controller(c).live;
        let causes: Vec<u32> = removed
            .map(|place| self.to.place(c, place as usize).cause)
            .collect();
        for message in 1..=self.to.sent() {
            let record = self.to.message(message);
            let held = record.state == state::HELD;
            let from_removed = record.sender as usize == c && record.number > kept;
            let settled = causes.contains(&message) && record.receiver != DESK;
            if settled || held && from_removed {
                let state = self.from.message(message).state;
                self.to.set_state(message, state);
            }
        }
    }
}

/// The ledger after a step, word by word: an opening that is done clears it, and publishing appends one
/// pair for each message.
fn ledger_after(before: &[u32], table: &[u32], command: Command, answer: Answer) -> Vec<u32> {
    let mut words = before.to_vec();
    match answer {
        Answer::Done if matches!(command, Command::Open { .. }) => words.fill(0),
        Answer::Released { message, mask } => publish(&mut words, table, &[message], mask),
        Answer::SetReleased { mask } => {
            let Command::ReleaseSet { messages } = command else {
                panic!("{command:?} is no set");
            };
            publish(&mut words, table, &messages, mask);
        }
        _ => {}
    }
    words
}

/// Appends the readings among these messages, in this order.
fn publish(words: &mut [u32], table: &[u32], messages: &[u32], mask: u32) {
    let table = Table::new(table).expect("the right length");
    for &message in messages {
        let record = table.message(message);
        if record.receiver == DESK {
            assert_eq!(mask, 0);
            let count = words[0] as usize;
            words[0] += 1;
            words[1 + 2 * count] = message;
            words[2 + 2 * count] = record.payload;
        }
    }
}

/// Mostly sound.
fn any_ledger(random: &mut Random) -> Vec<u32> {
    match random.below(8) {
        0 | 1 => damaged_ledger(random),
        2 => nearly_full_ledger(random),
        _ => sound_ledger(random),
    }
}

/// A senseless step, a gap set, sets, calls of the dispatcher, and a step of each letter that names what is there.
fn commands(random: &mut Random, words: &[u32]) -> Vec<Command> {
    let gap = gap(random);
    let sets = [0, 1, 2].map(|_| set(random, words));
    let mut commands = vec![senseless(random), Command::SetGap { gap }];
    commands.extend(sets.map(|messages| Command::ReleaseSet { messages }));
    commands.extend([Command::Dispatch; 2]);
    commands.extend(named(random, words));
    commands
}

/// A table in form, sometimes one with many messages held or released.
fn any_table(random: &mut Random) -> Vec<u32> {
    match random.below(10) {
        0..=2 => set_table(random),
        3..=5 => dispatch_table(random),
        _ => gapped_table(random),
    }
}

/// Whether a step forced a checkpoint where the gap asks for one, and nowhere else: of the interval that it
/// began, if it did, by the flags of the places before it.
fn keeps_to_the_gap(table: Table<&[u32]>, command: Command, answer: Answer) -> bool {
    let controller = match (command, answer) {
        (_, Answer::Delivered { message, .. }) => table.message(message).receiver,
        (_, Answer::Crashed { controller, .. } | Answer::Rolled { controller, .. }) => controller,
        _ => return true,
    };
    let live = table.controller(controller as usize).live;
    let is_flagged = |&place: &u32| table.place(controller as usize, place as usize).flag == 1;
    let latest = (0..live - 1).rev().find(is_flagged);
    let above = live - 1 - latest.expect("place 0 is flagged");
    is_flagged(&(live - 1)) == (table.gap() > 0 && above >= table.gap())
}

#[test]
fn steps_keep_the_form_and_write_only_what_they_name() {
    let mut random = Random::new(11);
    let (mut accepted, mut refused, mut published, mut served) = (0, 0, 0, 0);
    for _ in 0..1_500 {
        let mut words = any_table(&mut random);
        let mut ledger = any_ledger(&mut random);
        for command in commands(&mut random, &words) {
            let (before, ledger_before) = (words.clone(), ledger.clone());
            let answer = step(&mut words, &mut ledger, command);
            assert!(in_form(&words), "{command:?} {answer:?}");
            let table = Table::new(&words[..]).expect("the right length");
            assert!(keeps_to_the_gap(table, command, answer), "{command:?}");
            let expected = if matches!(answer, Answer::Refused { .. }) {
                refused += 1;
                assert!(ledger == ledger_before, "{command:?} {answer:?}");
                before
            } else {
                accepted += 1;
                let expected = ledger_after(&ledger_before, &words, command, answer);
                assert!(ledger == expected, "{command:?} {answer:?}");
                with_what_may_be_written(&before, &words, command, answer)
            };
            assert!(words == expected, "{command:?} {answer:?}");
            let stayed_sound = is_sound(&ledger) || !is_sound(&ledger_before);
            assert!(stayed_sound, "{command:?} {answer:?}");
            let opened = matches!(command, Command::Open { .. });
            published += u32::from(!opened && ledger != ledger_before);
            served += u32::from(command == Command::Dispatch && answer != Answer::Idle);
        }
    }
    assert!(accepted > 5_000 && refused > 3_000, "{accepted} {refused}");
    assert!(published > 50 && served > 500, "{published} {served}");
}

/// "14 .. stands .. at release and, for the length only, .. at opening": to all other steps the ledger is
/// all the same, and so it is to a release, of a set too, as long as it is sound and has room.
#[test]
fn only_a_release_and_an_opening_look_at_the_ledger() {
    let mut random = Random::new(14);
    for _ in 0..300 {
        let words = any_table(&mut random);
        for command in commands(&mut random, &words) {
            let looks = matches!(
                command,
                Command::Release { .. } | Command::Open { .. } | Command::ReleaseSet { .. }
            );
            let mut outcomes = Vec::new();
            for _ in 0..3 {
                let mut ledger = if looks {
                    // With room for every reading of a set.
                    let mut sound = sound_ledger(&mut random);
                    sound[0] = sound[0].min(112);
                    sound[225..].fill(0);
                    sound
                } else {
                    any_ledger(&mut random)
                };
                let mut after = words.clone();
                let answer = step(&mut after, &mut ledger, command);
                outcomes.push((answer, after));
            }
            assert!(outcomes[0] == outcomes[1] && outcomes[1] == outcomes[2]);
        }
    }
}

/// A step has no memory but the table and the ledger.
#[test]
fn the_same_table_and_ledger_give_the_same_answer() {
    let mut random = Random::new(12);
    for _ in 0..200 {
        let words = any_table(&mut random);
        let ledger = any_ledger(&mut random);
        for command in commands(&mut random, &words) {
            let [one, two] = [0, 1].map(|_| {
                let (mut words, mut ledger) = (words.clone(), ledger.clone());
                let answer = step(&mut words, &mut ledger, command);
                (answer, words, ledger)
            });
            assert!(one == two, "{command:?}");
        }
    }
}

/// "State 4 isn't given any more": a message is lost after a step only if it was so before. Some are no
/// longer, as causes of intervals that the step took off their chain.
#[test]
fn no_step_gives_state_lost() {
    let mut random = Random::new(13);
    let (mut kept, mut settled) = (0, 0);
    for _ in 0..2_000 {
        let words = any_table(&mut random);
        for command in commands(&mut random, &words) {
            let mut after = words.clone();
            let answer = step(&mut after, &mut sound_ledger(&mut random), command);
            let [before, after] = [&words, &after].map(|words| lost_messages(words));
            assert!(after.is_subset(&before), "{command:?} {answer:?}");
            if !matches!(command, Command::Open { .. }) {
                kept += after.len();
                settled += before.len() - after.len();
            }
        }
    }
    assert!(kept > 80_000 && settled > 700, "{kept} {settled}");
}

fn lost_messages(words: &[u32]) -> BTreeSet<u32> {
    let table = Table::new(words).expect("the right length");
    (1..=table.sent())
        .filter(|&message| table.message(message).state == state::LOST)
        .collect()
}
