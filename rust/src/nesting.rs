//! Whether events are one nested document, by the library.

use crate::buffers::ROW;
use crate::checked;
use crate::rows::List;
use crate::{AbxError, Event, Result};

/// Whether these events are one nested document, as the library says, whose definition is proved.
///
/// - There is exactly one outermost element.
/// - Each end tag has the name of the innermost open start tag, and no tag stays open.
/// - At most 64 tags are open at once.
/// - Outside the outermost element stand only document events, comments, processing instructions, `DocDecl` and ignorable whitespace; inside it
///   all but document events.
/// - There is at most one `StartDocument`, the first event, and at most one `EndDocument`, the last. Neither has to be there.
///
/// So the empty list is not one. Attributes and texts are not looked at, and take no time, however long they are.
///
/// ```
/// use abx::{nested, Event};
///
/// let lamp = [
///     Event::StartTag { name: "lamp".into(), attributes: vec![] },
///     Event::Text("on".into()),
///     Event::EndTag { name: "lamp".into() },
/// ];
/// assert!(nested(&lamp)?);
/// assert!(!nested(&lamp[..2])?);
/// assert!(!nested(&[lamp.clone(), lamp].concat())?);
/// # Ok::<(), abx::AbxError>(())
/// ```
///
/// # Errors
///
/// [`AbxError::NamesFull`] where the names of tags come to 4 GiB.
pub fn nested(events: &[Event]) -> Result<bool> {
    let mut list = List::default();
    list.clear(events.len());
    list.words.reserve_exact(ROW * events.len());
    for event in events {
        // Attributes have no part in it, which is proved, and no text is looked at: kinds and names are all that counts. Where names come to 4 GiB
        // they have no span.
        list.push_outline(event).map_err(|_| AbxError::NamesFull)?;
    }
    checked::nested(&list.store, &list.words)
}
