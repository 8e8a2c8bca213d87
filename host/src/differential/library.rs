//! What the proved library answers.

use super::calls::{Call, Place, STALE, STALE_WORD, Told, from_back};
use super::records;
use super::reference::{self, Look};
use crate::{Answer, Pool, World, raw};

/// The words of several stores.
#[derive(Clone)]
pub struct Library {
    pub stores: Vec<Vec<u64>>,
}

impl Library {
    /// What a call tells.
    pub fn answer(&mut self, call: &Call) -> Told {
        self.result(call).unwrap_or_else(Told::Refused)
    }

    fn lent(&self, at: Place) -> World<&[u64]> {
        World { pool: Pool::from_words(&self.stores[at.store]), number: at.world }
    }

    fn lent_mut(&mut self, at: Place) -> World<&mut [u64]> {
        World { pool: Pool::from_words(&mut self.stores[at.store]), number: at.world }
    }

    // A pool cannot be lent to be read and to be written at once, so a copy receives the result and takes the pool's place.
    fn receiving(
        &mut self,
        to: Place,
        make: impl FnOnce(&Library, &mut World<&mut [u64]>) -> Answer<()>,
    ) -> Answer<Told> {
        let mut words = self.stores[to.store].clone();
        let done = make(self, &mut World { pool: Pool::from_words(&mut words), number: to.world });
        self.stores[to.store] = words;
        done.map(|()| Told::Done)
    }

    fn result(&mut self, call: &Call) -> Answer<Told> {
        match *call {
            Call::Lend { at, ref words } => {
                self.stores[at] = words.clone();
                Ok(Told::Done)
            }
            Call::Poke { at, word, value } => {
                self.stores[at][word] = value;
                Ok(Told::Done)
            }
            Call::New { to, ref limits } => {
                let w = &mut self.stores[to];
                // SAFETY: as of every call in the crate's root. By words, so that a last one without a partner can be handed in.
                let refusal = unsafe { raw::vizturel_abi_new(w.as_mut_ptr(), w.len(), limits.as_ptr(), limits.len()) };
                crate::answer(refusal, Told::Done)
            }
            Call::Set { at, range, value } => self.lent_mut(at).set(range, value).map(Told::Count),
            Call::Flip { at, range } => self.lent_mut(at).flip(range).map(|()| Told::Done),
            Call::Shift { at, distance, left } => self.lent_mut(at).shift(distance, left).map(|()| Told::Done),
            Call::Get { at, x } => self.lent(at).get(x).map(Told::Value),
            Call::RunAt { at, x } => self.lent(at).run_at(x).map(Told::Run),
            Call::Find { at, range, value } => self.lent(at).find(range, value).map(Told::Position),
            Call::Tally { at, range, value } => self.lent(at).tally(range, value).map(Told::Tally),
            Call::SetStrict { at, range, value } => self.lent_mut(at).set_strict(range, value).map(Told::Count),
            Call::FlipStrict { at, range } => self.lent_mut(at).flip_strict(range).map(|()| Told::Done),
            Call::TallyStrict { at, range, value } => self.lent(at).tally_strict(range, value).map(Told::Tally),
            Call::Select { at, range, value, k } => self.lent(at).select(range, value, k).map(Told::Position),
            Call::Gap { at, range, n } => self.lent(at).gap(range, n).map(Told::Position),
            Call::Ranges { at, range, value, backs } => {
                let world = self.lent(at);
                let made = world.listing(range, value)?;
                let mut listing = made;
                let mut draws = Vec::new();
                loop {
                    let back = from_back(backs, draws.len());
                    let run = if back { world.draw_back(&mut listing)? } else { world.draw_front(&mut listing)? };
                    draws.push((run.clone(), listing));
                    if run.is_none() {
                        return Ok(Told::Draws(made, draws));
                    }
                }
            }
            Call::Draw { at, listing, back } => {
                let world = self.lent(at);
                let mut left = listing;
                let drawn = if back { world.draw_back(&mut left) } else { world.draw_front(&mut left) };
                match drawn {
                    Err(r) if left != listing => Ok(Told::RefusedAndChanged(r)),
                    drawn => Ok(Told::Drawn(drawn?, left)),
                }
            }
            Call::Fill { at, base, n } => self.lent(at).fill(base, n).map(Told::Number),
            Call::SetRect { at, rect, value } => self.lent_mut(at).set_rect(rect, value).map(Told::Count),
            Call::CountRect { at, rect } => self.lent(at).count_rect(rect).map(Told::Number),
            Call::Survey { at, row, column, k, room } => {
                let mut out = vec![STALE_WORD; room];
                let w = &self.stores[at.store];
                let to = out.as_mut_ptr();
                // SAFETY: as of every call in the crate's root. By words, so that a part of a piece's room can be handed in.
                let told = crate::number(|a| unsafe {
                    raw::vizturel_abi_survey(w.as_ptr(), w.len(), at.world, row, column, k, to, room, a)
                });
                let filled = told.map(|words| words as usize);
                written(filled, out, STALE_WORD, Told::Words)
            }
            Call::Combine { to, op, a, b } => {
                self.receiving(to, |library, w| w.combine(op, &library.lent(a), &library.lent(b)))
            }
            Call::Not { to, a } => self.receiving(to, |library, w| w.not(&library.lent(a))),
            Call::Shifted { to, a, distance, left } => {
                self.receiving(to, |library, w| w.shifted(&library.lent(a), distance, left))
            }
            Call::Equal { a, b } => self.lent(a).eq(&self.lent(b)).map(Told::Value),
            Call::Load { to, ref bytes } => self.lent_mut(to).load(bytes).map(|()| Told::Done),
            Call::Mend { to, ref bytes, rooms } => {
                let [mut out, mut report] = rooms.map(|room| vec![STALE; room]);
                let w = &mut self.stores[to.store];
                // SAFETY: as of every call in the crate's root. The report as bytes, so that those after it can be seen to stay.
                let mended = crate::given(|a| unsafe {
                    raw::vizturel_abi_mend(
                        w.as_mut_ptr(),
                        w.len(),
                        to.world,
                        bytes.as_ptr(),
                        bytes.len(),
                        out.as_mut_ptr(),
                        out.len(),
                        report.as_mut_ptr(),
                        report.len(),
                        a,
                    )
                });
                let filled = mended.map(|mended| [mended.number, mended.end].map(|n| n as usize));
                match filled {
                    Err(r) if [&out, &report].into_iter().flatten().any(|&x| x != STALE) => {
                        Ok(Told::RefusedAndChanged(r))
                    }
                    filled => filled.map(|[set, fates]| Told::Slices([(set, out), (fates, report)])),
                }
            }
            Call::Build { to, ref runs } => self.lent_mut(to).build(runs).map(|()| Told::Done),
            Call::ReadMap { at, base, n, ref map } => {
                let mut copy = self.stores[at.store].clone();
                let by_words = self.lent_mut(at).read_map(base, n, map);
                let mut other = World { pool: Pool::from_words(&mut copy), number: at.world };
                let by_bytes = other.read_map_by_bytes(base, n, map);
                // A refused call leaves every word. Of one that was done the nodes may lie anywhere: what they hold is compared.
                let words = &self.stores[at.store];
                let left_alike = *words == copy || by_words.is_ok() && hold_alike(words, &copy);
                agreed([by_words, by_bytes].map(|told| told.map(Told::Count)), left_alike)
            }
            Call::ClearMap { base, n, ref map } => {
                let mut cleared = map.clone();
                match crate::clear_map(base, n, &mut cleared) {
                    Err(r) if cleared != *map => Ok(Told::RefusedAndChanged(r)),
                    told => Ok(Told::Cleared(told?, cleared)),
                }
            }
            Call::Convert { ref bytes, room } => {
                let mut out = vec![STALE; room];
                let filled = crate::convert(bytes, &mut out).map(|part| part.len());
                written(filled, out, STALE, Told::Slice)
            }
            Call::Deepest { at, height, room } => {
                let mut out = vec![STALE_WORD; room];
                let w = &self.stores[at];
                let to = out.as_mut_ptr();
                // SAFETY: as of every call in the crate's root. By words, so that half a run's room can be handed in.
                let told =
                    crate::number(|a| unsafe { raw::vizturel_abi_deepest(w.as_ptr(), w.len(), height, to, room, a) });
                let filled = told.map(|words| words as usize);
                written(filled, out, STALE_WORD, Told::Words)
            }
            Call::WhyFull { at, ref ranges, room } => {
                let mut out = vec![STALE_WORD; room];
                let w = &self.stores[at];
                let (from, to) = (ranges.as_ptr(), out.as_mut_ptr());
                // SAFETY: as of every call in the crate's root. By words, so that a part of a range and any kind of bound can be handed in.
                let told = crate::number(|a| unsafe {
                    raw::vizturel_abi_why_full(w.as_ptr(), w.len(), from, ranges.len(), to, room, a)
                });
                let filled = told.map(|words| words as usize);
                written(filled, out, STALE_WORD, Told::Words)
            }
            Call::Write { at, edition, room } => {
                let mut out = vec![STALE; room];
                let w = &self.stores[at.store];
                let to = out.as_mut_ptr();
                // SAFETY: as of every call in the crate's root. By number, so that one that names no edition can be handed in.
                let told = crate::number(|a| unsafe {
                    raw::vizturel_abi_write(w.as_ptr(), w.len(), at.world, edition, to, room, a)
                });
                let filled = told.map(|bytes| bytes as usize);
                written(filled, out, STALE, Told::Slice)
            }
            Call::WriteMap { at, base, n, room } => {
                let [mut out, mut other] = [vec![STALE; room], vec![STALE; room]];
                let by_words = self.lent(at).write_map(base, n, &mut out).map(|part| part.len());
                let by_bytes = self.lent(at).write_map_by_bytes(base, n, &mut other).map(|part| part.len());
                let told = [(by_words, out), (by_bytes, other)];
                agreed(told.map(|(filled, out)| written(filled, out, STALE, Told::Slice)), true)
            }
            Call::Frame { at, ref calls, room } => {
                let mut out = vec![STALE_WORD; room];
                let mut pool = Pool::from_words(&mut self.stores[at][..]);
                let filled = pool.play_words(calls, &mut out).map(|()| calls.len() / records::WORDS);
                written(filled, out, STALE_WORD, |count, out| {
                    let (told, rest) = out.split_at(out.len().min(records::WORDS * count));
                    Told::Answers(told.as_chunks().0.to_vec(), rest.to_vec())
                })
            }
        }
    }
}

fn written<T: PartialEq>(
    filled: Answer<usize>,
    out: Vec<T>,
    stale: T,
    told: impl FnOnce(usize, Vec<T>) -> Told,
) -> Answer<Told> {
    match filled {
        Err(r) if out.iter().any(|x| *x != stale) => Ok(Told::RefusedAndChanged(r)),
        filled => Ok(told(filled?, out)),
    }
}

// What both forms of a call on a map tell, by words and by single bytes, where they agree.
fn agreed(forms: [Answer<Told>; 2], left_alike: bool) -> Answer<Told> {
    let [by_words, by_bytes] = forms;
    if by_words == by_bytes && left_alike {
        return by_words;
    }
    let told = [by_words, by_bytes].map(|told| told.unwrap_or_else(Told::Refused));
    Ok(Told::FormsDiffer(Box::new(told)))
}

// Whether two sound pools have the same worlds.
fn hold_alike(a: &[u64], b: &[u64]) -> bool {
    matches!((reference::look(a), reference::look(b)), (Look::Holds(a), Look::Holds(b)) if a == b)
}
