//! The three that are measured, behind one set of calls.

use crate::plain;
use code::{
    flic_get, flic_make, flic_play_list, flic_set, flic_take, flic_write_list, Answer, Device,
    Place, COUNTS, ORDER_BYTES, SINGLES_BYTES, SLOT_BYTES,
};
use model::{Ask, PLACES};

pub trait Subject {
    const NAME: &'static str;
    fn fresh(capable: bool) -> Self;
    fn set(&mut self, group: u32, attr: u64, payload: &[u8]) -> (u32, u64);
    fn get(&mut self, group: u32, attr: u64, out: &mut [u8]) -> (u32, u64);
    fn take(&mut self, subclasses: u8, external: bool, mcheck: bool, out: &mut [u8]) -> (u32, u64);
    fn write(&mut self, out: &mut [u8]) -> (u32, u64);
    fn play(&mut self, list: &[u8]) -> (u32, u64);
}

/// The proved code.
pub struct Library {
    pub c: Box<code::Controller>,
    pub d: Device,
    pub t: [Place; PLACES],
}

fn both(answer: Answer) -> (u32, u64) {
    (answer.code, answer.count)
}

// Sound, all six: whole records of the right layout, borrowed for the call.
impl Subject for Library {
    const NAME: &'static str = "proved";

    fn fresh(capable: bool) -> Library {
        let c = Box::new(code::Controller {
            slots: [0; SLOT_BYTES],
            order: [0; ORDER_BYTES],
            counts: [0; COUNTS],
            singles: [0; SINGLES_BYTES],
            ais: 0,
        });
        let free = Place { used: 0, isc: 0, maskable: 0, swap: 0, suppressible: 0, masked: 0 };
        let d = Device { simm: 0, nimm: 0, apf: 0 };
        let mut it = Library { c, d, t: [free; PLACES] };
        let made = unsafe { flic_make(&mut *it.c, &mut it.d, it.t.as_mut_ptr(), PLACES, capable) };
        assert_eq!(both(made), (0, 0));
        it
    }

    #[inline]
    fn set(&mut self, group: u32, attr: u64, payload: &[u8]) -> (u32, u64) {
        let (bytes, length) = (payload.as_ptr(), payload.len());
        let (d, t) = (&mut self.d, self.t.as_mut_ptr());
        both(unsafe { flic_set(&mut *self.c, d, t, PLACES, group, attr, bytes, length) })
    }

    #[inline]
    fn get(&mut self, group: u32, attr: u64, out: &mut [u8]) -> (u32, u64) {
        let (bytes, length) = (out.as_mut_ptr(), out.len());
        let (d, t) = (&self.d, self.t.as_ptr());
        both(unsafe { flic_get(&*self.c, d, t, PLACES, group, attr, bytes, length) })
    }

    #[inline]
    fn take(&mut self, subclasses: u8, external: bool, mcheck: bool, out: &mut [u8]) -> (u32, u64) {
        let (bytes, length) = (out.as_mut_ptr(), out.len());
        both(unsafe { flic_take(&mut *self.c, subclasses, external, mcheck, bytes, length) })
    }

    #[inline]
    fn write(&mut self, out: &mut [u8]) -> (u32, u64) {
        let (bytes, length) = (out.as_mut_ptr(), out.len());
        both(unsafe { flic_write_list(&*self.c, &self.d, self.t.as_ptr(), PLACES, bytes, length) })
    }

    #[inline]
    fn play(&mut self, list: &[u8]) -> (u32, u64) {
        let (bytes, length) = (list.as_ptr(), list.len());
        let (d, t) = (&mut self.d, self.t.as_mut_ptr());
        both(unsafe { flic_play_list(&mut *self.c, d, t, PLACES, bytes, length) })
    }
}

/// Plain Rust, written for speed.
impl Subject for plain::Controller {
    const NAME: &'static str = "plain";

    fn fresh(capable: bool) -> plain::Controller {
        plain::Controller::new(capable)
    }

    #[inline]
    fn set(&mut self, group: u32, attr: u64, payload: &[u8]) -> (u32, u64) {
        plain::Controller::set(self, PLACES, group, attr, payload)
    }

    #[inline]
    fn get(&mut self, group: u32, attr: u64, out: &mut [u8]) -> (u32, u64) {
        plain::Controller::get(self, PLACES, group, attr, out)
    }

    #[inline]
    fn take(&mut self, subclasses: u8, external: bool, mcheck: bool, out: &mut [u8]) -> (u32, u64) {
        plain::Controller::take(self, subclasses, external, mcheck, out)
    }

    #[inline]
    fn write(&mut self, out: &mut [u8]) -> (u32, u64) {
        self.write_list(PLACES, out)
    }

    #[inline]
    fn play(&mut self, list: &[u8]) -> (u32, u64) {
        self.play_list(PLACES, list)
    }
}

/// The tests' model, written to be read.
pub struct Model {
    it: model::Controller,
    list: Vec<u8>,
}

impl Subject for Model {
    const NAME: &'static str = "model";

    fn fresh(capable: bool) -> Model {
        Model { it: model::Controller::fresh(capable), list: vec![0; 1 << 16] }
    }

    #[inline]
    fn set(&mut self, group: u32, attr: u64, payload: &[u8]) -> (u32, u64) {
        // The model borrows every buffer to write it, and leaves a payload as it is.
        let lent = &mut self.list[..payload.len()];
        lent.copy_from_slice(payload);
        self.it.call(&Ask::Set { group, attr }, lent, PLACES)
    }

    #[inline]
    fn get(&mut self, group: u32, attr: u64, out: &mut [u8]) -> (u32, u64) {
        self.it.call(&Ask::Get { group, attr }, out, PLACES)
    }

    #[inline]
    fn take(&mut self, subclasses: u8, external: bool, mcheck: bool, out: &mut [u8]) -> (u32, u64) {
        self.it.call(&Ask::Take { subclasses, external, machine_check: mcheck }, out, PLACES)
    }

    #[inline]
    fn write(&mut self, out: &mut [u8]) -> (u32, u64) {
        self.it.call(&Ask::WriteList, out, PLACES)
    }

    #[inline]
    fn play(&mut self, list: &[u8]) -> (u32, u64) {
        let lent = &mut self.list[..list.len()];
        lent.copy_from_slice(list);
        self.it.call(&Ask::PlayList, lent, PLACES)
    }
}
