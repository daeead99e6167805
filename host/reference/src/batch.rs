//! The call `batch`.

use crate::add::add;
use crate::disk::judge_image_len;
use crate::items::{items, Item};
use crate::remove::remove;
use crate::reply::{Refusal, Reply};

/// Makes the removes and adds of a list (§8.19). The image's length and the
/// whole list are judged before the first of them, and with these refusals
/// nothing is changed (§7.27). Of a refused item no byte is changed; those before
/// it stand.
pub fn batch(image: &mut [u8], list: &[u8]) -> Reply {
    match judged(image, list) {
        Ok(items) => in_turn(&items, |item| call(image, item)),
        Err(refusal) => refusal.reply(),
    }
}

/// The items of the list, or the refusal of the whole call: 1 (§7.1), then 20
/// (§7.27). Nothing else of the disk is looked at, so that an empty list is done
/// on any.
fn judged<'a>(image: &[u8], list: &'a [u8]) -> Result<Vec<Item<'a>>, Refusal> {
    judge_image_len(image)?;
    items(list)
}

/// The single call that an item stands for (§8.19).
fn call(image: &mut [u8], item: &Item) -> Reply {
    match *item {
        Item::Remove { name } => remove(image, name),
        Item::Add { name, date, data } => add(image, name, date, data),
    }
}

/// Makes calls up to the first that is refused (§8.19), whose reply is given with
/// the number of its item, from 1, as the third place; done, all places are 0.
pub fn in_turn<'a>(items: &[Item<'a>], mut call: impl FnMut(&Item<'a>) -> Reply) -> Reply {
    for (number, item) in (1..).zip(items) {
        let reply = call(item);
        if reply.number != 0 {
            return Reply {
                third: number,
                ..reply
            };
        }
    }
    Reply::DONE
}
