//! Rides: rows written, turned and read step by step, and what became of them, counted.

use crate::c::{self, call, done};
use crate::{Code, Refusal, Row};

/// How many steps a ride has at most.
pub const LONGEST_RIDE: usize = 1000;

/// A step of a ride.
#[derive(Clone, Copy, Debug, PartialEq, Eq)]
pub struct Step<'a> {
    /// The row that is sent.
    pub row: Row,
    /// A mark for each sent place, as its word has them: 1 where the bit is turned, and 0 where it is not.
    pub turned: &'a [u8],
}

/// What became of the steps of a ride. The last three add up to the first.
#[derive(Clone, Copy, Debug, Default, PartialEq, Eq)]
pub struct Counts {
    /// The steps.
    pub steps: u32,
    /// Those that were read as they were sent.
    pub right: u32,
    /// Those that were refused on reading, by 10 or 11.
    pub held: u32,
    /// Those that were read, but not as they were sent.
    pub wrong: u32,
}

impl Code<'_> {
    /// Rides the card: each step writes its row, turns the marked bits and reads the row. With at most t bits turned in
    /// every step, all of them are right. The `room` is there to work in and has at least [`Code::ride_room`] bytes;
    /// what stands in it afterwards means nothing.
    ///
    /// Refused by 1 to 7, with 2 for more than [`LONGEST_RIDE`] steps; by 20; by 2 for marks of another length than the
    /// number of sent places and for a room that is too short; by 12 before the ride starts, with no steps too; then,
    /// step by step, by 8 (a mark that is neither 0 nor 1) and by 11 (no such row), 8 being first in one step. 8 and 11
    /// end the ride, and the counts of the steps before that one are written all the same. With every other refusal the
    /// counts are left alone.
    ///
    /// ```
    /// use zovunelith::{nothing_hidden, Code, Counts, Lamp, Refusal, Row, Step};
    ///
    /// let h = [12, 8, 10, 22, 26, 9, 16, 21, 14, 5, 17, 4, 30, 23, 25, 31];
    /// let code = Code { m: 5, n: 16, t: 2, omega: 24, h: &h, hidden: nothing_hidden(16) };
    ///
    /// let row = Row { gear: 1, lamp: Lamp::Dark };
    /// let two = [1, 0, 0, 0, 0, 0, 0, 0, 1, 0, 0, 0, 0, 0, 0, 0];
    /// let three = [1, 1, 1, 0, 0, 0, 0, 0, 0, 0, 0, 0, 0, 0, 0, 0];
    /// let mut steps = [Step { row, turned: &two }, Step { row, turned: &three }, Step { row, turned: &two }];
    ///
    /// let mut room = [0; 3 * (2 + 16)];
    /// assert_eq!(room.len(), code.ride_room(steps.len()));
    /// let mut counts = Counts::default();
    /// code.ride(&steps, &mut room, &mut counts)?;
    /// assert_eq!(counts, Counts { steps: 3, right: 2, held: 1, wrong: 0 });
    ///
    /// // Green goes with both neutrals only: the ride ends by 11 at its last step, which is not counted.
    /// steps[2].row = Row { gear: 1, lamp: Lamp::Green };
    /// assert_eq!(code.ride(&steps, &mut room, &mut counts), Err(Refusal::NoSuchRow));
    /// assert_eq!(counts, Counts { steps: 2, right: 1, held: 1, wrong: 0 });
    /// # Ok::<(), Refusal>(())
    /// ```
    pub fn ride(&self, steps: &[Step<'_>], room: &mut [u8], counts: &mut Counts) -> Result<(), Refusal> {
        let sent = self.sent();
        let room = room.get_mut(..self.ride_room(steps.len()));
        let (Some(room), true) = (room, steps.iter().all(|step| step.turned.len() == sent)) else {
            // What was lent has a wrong length, and the lists can't be laid out. Others of a wrong length have the call
            // give the number that is due: no counts where there are too many steps, which is looked for at once, and
            // else marks for no step, which are looked at once the code is accepted.
            if steps.len() > LONGEST_RIDE {
                return self.ride_lists(&[], &[], &[], &mut []);
            }
            return self.ride_lists(&[], &[], &[0], &mut [0; 4]);
        };
        let (gears, room) = room.split_at_mut(steps.len());
        let (lamps, turned) = room.split_at_mut(steps.len());
        for (i, step) in steps.iter().enumerate() {
            // A gear that has no room in a byte becomes one that is none either.
            gears[i] = u8::try_from(step.row.gear).unwrap_or(u8::MAX);
            lamps[i] = step.row.lamp as u8;
            turned[i * sent..][..sent].copy_from_slice(step.turned);
        }
        let mut four = [counts.steps, counts.right, counts.held, counts.wrong];
        let answer = self.ride_lists(gears, lamps, turned, &mut four);
        let [steps, right, held, wrong] = four;
        *counts = Counts { steps, right, held, wrong };
        answer
    }

    /// The bytes of room that a ride of so many steps needs: a gear, a lamp and the marks of the sent places for each.
    pub const fn ride_room(&self, steps: usize) -> usize {
        steps.saturating_mul(self.sent().saturating_add(2))
    }

    /// The same for steps that are laid out already, as numbers: a gear and a lamp for each step, and the marks of
    /// each, step after step. Steps, right, held and wrong go into `counts`, which has four entries. The lamp 0 is
    /// dark, 1 green, 2 amber, and any other refused by 11. Lists of other lengths are refused by 2: marks after 20,
    /// and the others after 1.
    pub fn ride_lists(&self, gears: &[u8], lamps: &[u8], turned: &[u8], counts: &mut [u32]) -> Result<(), Refusal> {
        done(call!(
            self,
            zov_ride,
            gears.as_ptr(),
            gears.len(),
            lamps.as_ptr(),
            lamps.len(),
            turned.as_ptr(),
            turned.len(),
            counts.as_mut_ptr(),
            counts.len()
        ))
    }
}
