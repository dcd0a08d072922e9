//! Damaged images and arguments: every truncation, every single-byte change, random bytes. Each call must refuse what
//! the two readers of the layout refuse (the oracle's, and `inplace`), and nothing else.

use crate::compare::{Comparer, Held};
use crate::images::{Maker, Style};
use crate::judge::{Judge, is_read};
use crate::random::Random;
use oracle::calls::Call;

/// The next call to ask a damaged image: all sorts in turn.
struct Asked<'a> {
    maker: Maker<'a>,
    turn: u64,
}

impl Asked<'_> {
    fn hold(&mut self, comparer: &mut Comparer, image: &[u8]) -> Held<()> {
        let mut judge = Judge::new(image);
        let second = inplace::validate(image).err().map_or(0, |refusal| refusal as u8);
        assert_eq!(judge.verdict(), second, "the two readers differ on {}", oracle::lines::hex(image));
        self.turn += 1;
        let call = match self.turn % 22 {
            sort @ 0..9 => self.maker.read(sort),
            sort => self.maker.change_call(sort - 9),
        };
        if is_read(&call) {
            comparer.read(&mut judge, &call).map(drop)
        } else {
            let room = if self.maker.random.chance(2) { image.len() + 64 } else { image.len() };
            comparer.change_in(&mut judge, &call, room).map(drop)
        }
    }
}

/// Every truncation and every single-byte change of `image`.
pub fn damaged(comparer: &mut Comparer, random: &mut Random, image: &[u8]) -> Held<()> {
    let style = Style::short(random);
    let mut asked = Asked { maker: Maker { random, style }, turn: 0 };
    for end in 0..=image.len() {
        asked.hold(comparer, &image[..end])?;
    }
    asked.hold(comparer, &[image, &[0]].concat())?;
    let mut bytes = image.to_vec();
    for place in 0..bytes.len() {
        let old = bytes[place];
        for new in 0..=255 {
            bytes[place] = new;
            asked.hold(comparer, &bytes)?;
        }
        bytes[place] = old;
    }
    Ok(())
}

/// A random image, damaged in every place.
pub fn one_image(comparer: &mut Comparer, random: &mut Random) -> Held<()> {
    let style = Style::short(random);
    let image = Maker { random, style }.image();
    let place = random.below((image.len() as u64).saturating_sub(60).max(1)) as usize;
    // Of a longer image, the bytes around one place; the rest stays as it is.
    if image.len() <= 120 { damaged(comparer, random, &image) } else { damaged_from(comparer, random, &image, place) }
}

fn damaged_from(comparer: &mut Comparer, random: &mut Random, image: &[u8], from: usize) -> Held<()> {
    let style = Style::short(random);
    let mut asked = Asked { maker: Maker { random, style }, turn: from as u64 };
    let mut bytes = image.to_vec();
    for place in from..(from + 60).min(bytes.len()) {
        asked.hold(comparer, &image[..place])?;
        let old = bytes[place];
        for new in 0..=255 {
            bytes[place] = new;
            asked.hold(comparer, &bytes)?;
        }
        bytes[place] = old;
    }
    Ok(())
}

/// Random bytes, with small numbers more often, so that some get far.
pub fn noise(comparer: &mut Comparer, random: &mut Random) -> Held<()> {
    let most = random.pick(&[2, 3, 4, 8, 256]);
    for _ in 0..300 {
        let length = random.below(60);
        let mut image: Vec<u8> = (0..length).map(|_| random.below(most) as u8).collect();
        if random.chance(2) {
            // The end of an empty store, so that what stands before it decides.
            image.extend([1, 0, 0, 0]);
        }
        let style = Style::short(random);
        let turn = random.below(22);
        Asked { maker: Maker { random, style }, turn }.hold(comparer, &image)?;
    }
    Ok(())
}

/// Every truncation and single-byte change of what insert and update are given.
pub fn arguments(comparer: &mut Comparer, random: &mut Random) -> Held<()> {
    let style = Style::short(random);
    let mut maker = Maker { random, style };
    let image = maker.image();
    let mut judge = Judge::new(&image);
    let inode = maker.inode();
    let of = maker.random.pick(&[1, 3]);
    let fields = maker.fields(of).write();
    let delta = maker.delta().write();
    each_damage(&fields, |fields| comparer.change(&mut judge, &Call::Update { inode, fields }).map(drop))?;
    each_damage(&delta, |delta| comparer.change(&mut judge, &Call::Insert { inode, delta }).map(drop))
}

fn each_damage(bytes: &[u8], mut each: impl FnMut(Vec<u8>) -> Held<()>) -> Held<()> {
    let bytes = &bytes[..bytes.len().min(80)];
    for end in 0..=bytes.len() {
        each(bytes[..end].to_vec())?;
    }
    each([bytes, &[0]].concat())?;
    for place in 0..bytes.len() {
        for new in 0..=255 {
            let mut damaged = bytes.to_vec();
            damaged[place] = new;
            each(damaged)?;
        }
    }
    Ok(())
}
