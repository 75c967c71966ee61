//! A controller of the library, with its device record and adapter table, in
//! watched memory.

use crate::area::Area;
use crate::{
    check, flic_get, flic_make, flic_play_list, flic_set, flic_take, flic_write_list, Answer,
    Complaint, Controller, Device, Place,
};
use model::calls::Rng;
use model::{Ask, PLACES};
use std::mem::size_of;

/// Most bytes lent with one call, and most places of a table.
pub const MOST_BYTES: usize = 1 << 17;
pub const MOST_PLACES: usize = 512;

pub struct Machine {
    controller: Area,
    device: Area,
    table: Area,
    other_table: Area,
    buffer: Area,
    at_end: bool,
}

impl Machine {
    pub fn new() -> Machine {
        let mut machine = Machine {
            controller: Area::new(size_of::<Controller>()),
            device: Area::new(size_of::<Device>()),
            table: Area::new(MOST_PLACES * size_of::<Place>()),
            other_table: Area::new(MOST_PLACES * size_of::<Place>()),
            buffer: Area::new(MOST_BYTES),
            at_end: false,
        };
        machine.place(true);
        machine.buffer.lend(0, true);
        machine.other_table.lend(0, true);
        machine
    }

    fn place(&mut self, at_end: bool) {
        self.controller.lend(size_of::<Controller>(), at_end);
        self.device.lend(size_of::<Device>(), at_end);
        self.table.lend(PLACES * size_of::<Place>(), at_end);
    }

    /// Makes it fresh, out of memory with any values; before that, at times, a
    /// try with a table of another length.
    pub fn make(&mut self, ais: bool, seed: u64) -> Result<(), Complaint> {
        let mut rng = Rng::new(seed);
        self.place(rng.percent(50));
        for area in [&mut self.controller, &mut self.device] {
            area.bytes().fill_with(|| rng.next() as u8);
        }
        // A bool is 0 or 1.
        let at = std::mem::offset_of!(Controller, ais);
        self.controller.bytes()[at..].fill(rng.next() as u8 & 1);
        self.device.bytes()[2] &= 1;
        any_places(&mut rng, self.table.bytes());
        if rng.percent(30) {
            let places = rng.pick(&[0, 1, 63, 65, 128]);
            let before = self.state();
            self.lend_other(places, rng.next());
            let table_before = self.other_table.bytes().to_vec();
            // Sound: memory of the right layout and length, with values of its types.
            let answer = unsafe {
                flic_make(
                    self.controller.bytes().as_mut_ptr().cast(),
                    self.device.bytes().as_mut_ptr().cast(),
                    self.other_table.bytes().as_mut_ptr().cast(),
                    places,
                    ais,
                )
            };
            check(
                answer == Answer { code: 14, count: 0 },
                "the answer of a make with another table",
            )?;
            check(self.state() == before, "a make with another table changed something")?;
            check(self.other_table.bytes() == table_before, "a make changed another table")?;
        }
        // Sound: as above.
        let answer = unsafe {
            flic_make(
                self.controller.bytes().as_mut_ptr().cast(),
                self.device.bytes().as_mut_ptr().cast(),
                self.table.bytes().as_mut_ptr().cast(),
                PLACES,
                ais,
            )
        };
        check(answer == Answer { code: 0, count: 0 }, "the answer of a make")?;
        check(self.surroundings_kept(), "a make wrote beside what it was lent")?;
        check(self.controller.bytes()[at] == u8::from(ais), "the capability after a make")
    }

    /// One call, with the controller's own table if it has the right length.
    pub fn call(
        &mut self,
        ask: &Ask,
        bytes: &mut [u8],
        places: usize,
    ) -> Result<(u32, u64), Complaint> {
        self.at_end = !self.at_end;
        let buffer = self.buffer.lend(bytes.len(), self.at_end);
        self.buffer.bytes().copy_from_slice(bytes);
        let length = bytes.len();
        let own = places == PLACES;
        self.lend_other(if own { 0 } else { places }, length as u64);
        let before = self.state();
        let other_before = self.other_table.bytes().to_vec();
        let c: *mut Controller = self.controller.bytes().as_mut_ptr().cast();
        let d: *mut Device = self.device.bytes().as_mut_ptr().cast();
        let table = if own { &mut self.table } else { &mut self.other_table };
        let t: *mut Place = table.bytes().as_mut_ptr().cast();
        // Sound: memory of the right layout and length; nobody else uses it.
        let answer = unsafe {
            match *ask {
                Ask::Set { group, attr } => flic_set(c, d, t, places, group, attr, buffer, length),
                Ask::Get { group, attr } => flic_get(c, d, t, places, group, attr, buffer, length),
                Ask::Take { subclasses, external, machine_check } => {
                    flic_take(c, subclasses, external, machine_check, buffer, length)
                }
                Ask::WriteList => flic_write_list(c, d, t, places, buffer, length),
                Ask::PlayList => flic_play_list(c, d, t, places, buffer, length),
            }
        };
        bytes.copy_from_slice(self.buffer.bytes());
        check(self.surroundings_kept(), "bytes beside what was lent changed")?;
        check(self.other_table.bytes() == other_before, "a table of another length changed")?;
        let take = matches!(ask, Ask::Take { .. });
        let reads = matches!(ask, Ask::Get { .. } | Ask::WriteList);
        let refused = answer.code != 0 && *ask != Ask::PlayList;
        if reads || refused || !own && !take {
            check(self.state() == before, "the controller, device record or table changed")?;
        }
        if take {
            let (_, device, table) = self.state();
            check((device, table) == (before.1, before.2), "a take changed what it was not lent")?;
        }
        Ok((answer.code, answer.count))
    }

    /// The masks and the page-fault flag.
    pub fn device(&mut self) -> Device {
        let [simm, nimm, apf] = *self.device.bytes() else { unreachable!() };
        Device { simm, nimm, apf }
    }

    /// The adapter places.
    pub fn places(&mut self) -> impl Iterator<Item = Place> + '_ {
        let (places, _) = self.table.bytes().as_chunks::<6>();
        places.iter().map(|&[used, isc, maskable, swap, suppressible, masked]| Place {
            used,
            isc,
            maskable,
            swap,
            suppressible,
            masked,
        })
    }

    fn state(&mut self) -> (Vec<u8>, Vec<u8>, Vec<u8>) {
        let copy = |area: &mut Area| area.bytes().to_vec();
        (copy(&mut self.controller), copy(&mut self.device), copy(&mut self.table))
    }

    fn surroundings_kept(&mut self) -> bool {
        let areas = [
            &mut self.controller,
            &mut self.device,
            &mut self.table,
            &mut self.other_table,
            &mut self.buffer,
        ];
        areas.into_iter().all(Area::kept)
    }

    /// Readies a table of another length, with any places.
    fn lend_other(&mut self, places: usize, seed: u64) {
        self.other_table.lend(places * size_of::<Place>(), self.at_end);
        any_places(&mut Rng::new(seed), self.other_table.bytes());
    }
}

impl Default for Machine {
    fn default() -> Machine {
        Machine::new()
    }
}

/// Places with any values of their types.
fn any_places(rng: &mut Rng, bytes: &mut [u8]) {
    for place in bytes.as_chunks_mut::<6>().0 {
        let any = rng.next().to_le_bytes();
        *place = [any[0] & 1, any[1], any[2] & 1, any[3] & 1, any[4] & 1, any[5] & 1];
    }
}
