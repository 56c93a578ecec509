//! What is in a box.

use crate::buffers::buffer;
use crate::{points, BoxKind, BoxSizes, Error, Glue, Job, Sp, Stretch};
use boxglue_sys as sys;
use std::fmt::{Debug, Display, Formatter, Result as FormatResult, Write};

/// The sizes of the first buffers. If there are more items, the call is made again with buffers that suffice.
const ITEM_ROOM: usize = 256;
const TEXT_ROOM: usize = 1 << 10;
const POINT: i128 = 65_536;
/// The greatest ratio that TeX shows as it is.
const MOST_RATIO: i128 = 20_000;
const OVERFULL: u32 = 1_000_000;
const WORST: u32 = 10_000;

/// A place, from the reference point of the box that was inspected, in scaled points. Glue may reach beyond 64 bits.
#[derive(Clone, Copy, Debug, Default, PartialEq, Eq, Hash)]
pub struct Place {
    /// To the right.
    pub x: i128,
    /// Downward.
    pub y: i128,
}

/// The order of stretch or shrink.
#[derive(Clone, Copy, Debug, Default, PartialEq, Eq, PartialOrd, Ord, Hash)]
#[allow(missing_docs)] // as scripts name them; Normal is a length
pub enum Order {
    #[default]
    Normal,
    Fil,
    Fill,
    Filll,
}

/// How the glue of a box is set. The ratio `num / den` is exact; it is below 0 if the total of the stretch or shrink is, and `den` is above 0.
#[derive(Clone, Copy, Debug, PartialEq, Eq, Hash)]
#[allow(missing_docs)]
pub enum GlueSetting {
    /// All glue has its natural width.
    Natural,
    /// Glue of this order stretches by the ratio of its stretch.
    Stretching { order: Order, num: i64, den: i64 },
    /// Glue of this order shrinks by the ratio of its shrink.
    Shrinking { order: Order, num: i64, den: i64 },
}

/// An item of a box. A glyph has its reference point at its place, and a rule its lower left corner; the others but boxes start there.
#[derive(Clone, Copy, Debug)]
#[non_exhaustive]
#[allow(missing_docs)] // the fields are those that boxglue.h explains
pub enum Item<'t> {
    /// A character of the font in a slot.
    Glyph { at: Place, sizes: BoxSizes, slot: u32, code: u32 },
    /// A kern: one that the font put between two characters, or one of a command.
    Kern { at: Place, width: Sp, is_from_font: bool },
    /// Glue, and its distance to the next item.
    Glue { at: Place, glue: Glue, set_width: i128 },
    /// A penalty.
    Penalty { at: Place, penalty: i32 },
    /// A rule. A running size is the size of the box around it in this direction.
    Rule { at: Place, sizes: BoxSizes, running: Running },
    /// A special, and its text.
    Special { at: Place, text: &'t [u8] },
    /// A box.
    Box(BoxView<'t>),
    /// A kind that this version does not know.
    Other(u32),
}

/// Which sizes of a rule are running: taken from the box around it.
#[derive(Clone, Copy, Debug, Default, PartialEq, Eq, Hash)]
#[allow(missing_docs)]
pub struct Running {
    pub width: bool,
    pub height: bool,
    pub depth: bool,
}

/// A box that was inspected, with all that is in it. It stays as it is when its register gets another box.
#[derive(Clone)]
pub struct BoxTree {
    rows: Vec<sys::boxglue_item>,
    texts: Vec<u8>,
    /// For each row the number of the first one after it that is not in its box.
    ends: Vec<usize>,
}

// A box may have millions of items, so a message has their number alone.
impl Debug for BoxTree {
    fn fmt(&self, out: &mut Formatter<'_>) -> FormatResult {
        out.debug_struct("BoxTree").field("rows", &self.rows.len()).finish_non_exhaustive()
    }
}

impl Display for BoxTree {
    fn fmt(&self, out: &mut Formatter<'_>) -> FormatResult {
        Display::fmt(&self.root(), out)
    }
}

impl BoxTree {
    /// Returns the box.
    pub fn root(&self) -> BoxView<'_> {
        BoxView { tree: self, at: 0 }
    }

    /// The item of a row.
    fn item(&self, at: usize) -> Item<'_> {
        let row = &self.rows[at];
        let place = place_of(row);
        match row.kind {
            sys::BOXGLUE_ITEM_GLYPH => Item::Glyph { at: place, sizes: sizes_of(row), slot: row.slot, code: row.code },
            sys::BOXGLUE_ITEM_FONT_KERN => Item::Kern { at: place, width: Sp(row.width), is_from_font: true },
            sys::BOXGLUE_ITEM_KERN => Item::Kern { at: place, width: Sp(row.width), is_from_font: false },
            sys::BOXGLUE_ITEM_GLUE => Item::Glue { at: place, glue: glue_of(row), set_width: wide(row.set_width) },
            sys::BOXGLUE_ITEM_PENALTY => Item::Penalty { at: place, penalty: row.penalty },
            sys::BOXGLUE_ITEM_RULE => Item::Rule { at: place, sizes: sizes_of(row), running: running_of(row) },
            sys::BOXGLUE_ITEM_SPECIAL => Item::Special { at: place, text: &self.texts[row.text_start as usize..][..row.text_size as usize] },
            sys::BOXGLUE_ITEM_HBOX | sys::BOXGLUE_ITEM_VBOX => Item::Box(BoxView { tree: self, at }),
            other => Item::Other(other),
        }
    }
}

/// A box of a [`BoxTree`], with its reference point at its place.
#[derive(Clone, Copy)]
pub struct BoxView<'t> {
    tree: &'t BoxTree,
    at: usize,
}

impl Debug for BoxView<'_> {
    fn fmt(&self, out: &mut Formatter<'_>) -> FormatResult {
        out.write_str("BoxView ")?;
        self.write_head(out)
    }
}

impl<'t> BoxView<'t> {
    fn row(self) -> &'t sys::boxglue_item {
        &self.tree.rows[self.at]
    }

    /// Returns the kind of the box.
    pub fn kind(self) -> BoxKind {
        if self.row().kind == sys::BOXGLUE_ITEM_HBOX {
            BoxKind::Horizontal
        } else {
            BoxKind::Vertical
        }
    }

    /// Returns the place of its reference point.
    pub fn place(self) -> Place {
        place_of(self.row())
    }

    /// Returns its sizes.
    pub fn sizes(self) -> BoxSizes {
        sizes_of(self.row())
    }

    /// Returns how far it is moved: down in a horizontal list, to the right in a vertical one. Its place includes this.
    pub fn shift(self) -> Sp {
        Sp(self.row().shift)
    }

    /// Returns how its glue is set.
    pub fn setting(self) -> GlueSetting {
        let row = self.row();
        let (order, num, den) = (order_of(row.setting_order), row.ratio_num, row.ratio_den);
        match row.setting {
            1 => GlueSetting::Stretching { order, num, den },
            2 => GlueSetting::Shrinking { order, num, den },
            _ => GlueSetting::Natural,
        }
    }

    /// The numbers of the rows of its own items.
    fn places(self) -> impl Iterator<Item = usize> + Clone + 't {
        let (ends, end) = (&self.tree.ends, self.tree.ends[self.at]);
        std::iter::successors(Some(self.at + 1), move |at| ends.get(*at).copied()).take_while(move |at| *at < end)
    }

    /// Iterates over the items of its list.
    pub fn items(self) -> impl Iterator<Item = Item<'t>> + Clone {
        let tree = self.tree;
        self.places().map(move |at| tree.item(at))
    }

    /// Iterates over the hboxes in the list of a vbox, such as the lines of a paragraph. An hbox has none.
    pub fn lines(self) -> impl Iterator<Item = BoxView<'t>> + Clone {
        let BoxView { tree, .. } = self;
        let is_line = move |at: &usize| self.kind() == BoxKind::Vertical && tree.rows[*at].kind == sys::BOXGLUE_ITEM_HBOX;
        self.places().filter(is_line).map(move |at| BoxView { tree, at })
    }

    /// Iterates over all items in the box, each inner box before the items in it.
    pub fn walk(self) -> impl ExactSizeIterator<Item = Item<'t>> + DoubleEndedIterator + Clone {
        let tree = self.tree;
        (self.at + 1..tree.ends[self.at]).map(move |at| tree.item(at))
    }

    fn totals(self) -> Totals {
        let mut totals = Totals::default();
        let is_horizontal = self.kind() == BoxKind::Horizontal;
        self.places().for_each(|at| totals.add(&self.tree.rows[at], is_horizontal));
        totals
    }

    /// How much larger the box is than its items.
    fn excess(self, totals: &Totals) -> i64 {
        let BoxSizes { width, height, depth } = self.sizes();
        let size = if self.kind() == BoxKind::Horizontal { i64::from(width) } else { i64::from(height) + i64::from(depth) };
        size - totals.advance
    }

    /// Returns the width that an hbox has if no glue stretches or shrinks, or a vbox's height and depth together, in scaled points.
    pub fn natural_size(self) -> i64 {
        self.totals().advance
    }

    /// Returns the badness of its glue: 0 to 10,000, or 1,000,000 if the box is overfull (docs/COMMANDS.md, section 4).
    pub fn badness(self) -> u32 {
        let totals = self.totals();
        let excess = self.excess(&totals);
        let [total, infinite @ ..] = if excess < 0 { totals.shrink } else { totals.stretch };
        if self.places().next().is_none() || infinite != [0; 3] {
            return 0;
        }
        if excess < 0 && total < -excess {
            OVERFULL
        } else {
            badness(excess.unsigned_abs(), total)
        }
    }

    /// Returns by how much the box is overfull, after its glue has shrunk as far as it can, in scaled points; 0 if it is not overfull.
    pub fn overhang(self) -> i64 {
        let totals = self.totals();
        let (excess, [total, infinite @ ..]) = (self.excess(&totals), totals.shrink);
        if excess >= 0 || infinite != [0; 3] {
            0
        } else {
            (-excess - total).max(0)
        }
    }

    /// Shows the box as TeX's `\showbox` does: so many boxes deep (`\showboxdepth`), and so many items of a list (`\showboxbreadth`).
    ///
    /// `None` is all, which [`Display`] shows. The last line ends without a line feed. Fonts are shown by their slots, as `\font0`. Glue is shown without the name of a parameter, and specials whole.
    pub fn show(self, depth: Option<usize>, breadth: Option<usize>) -> String {
        let mut shown = String::new();
        // Writing to a String does not fail.
        let _ = self.write(&mut shown, 0, depth, breadth);
        shown
    }

    /// Writes the line of the box (TeX: The Program, section 184).
    fn write_head(self, out: &mut impl Write) -> FormatResult {
        let (BoxSizes { width, height, depth }, shift) = (self.sizes(), self.shift());
        let letter = if self.kind() == BoxKind::Horizontal { 'h' } else { 'v' };
        write!(out, "\\{letter}box({}+{})x{}", shown(height), shown(depth), shown(width))?;
        write_setting(out, self.setting())?;
        if shift == Sp::ZERO {
            Ok(())
        } else {
            write!(out, ", shifted {}", shown(shift.0))
        }
    }

    /// Writes the box and its items, so many boxes within the one that is shown (TeX: The Program, section 182).
    fn write(self, out: &mut impl Write, level: usize, depth: Option<usize>, breadth: Option<usize>) -> FormatResult {
        self.write_head(out)?;
        if depth.is_some_and(|most| level >= most) {
            return out.write_str(if self.places().next().is_some() { " []" } else { "" });
        }
        for (count, item) in self.items().enumerate() {
            write!(out, "\n{:.<1$}", "", level + 1)?;
            if breadth.is_some_and(|most| count >= most) {
                return out.write_str("etc.");
            }
            match item {
                Item::Box(inner) => inner.write(out, level + 1, depth, breadth)?,
                leaf => write!(out, "{leaf}")?,
            }
        }
        Ok(())
    }
}

impl Display for BoxView<'_> {
    fn fmt(&self, out: &mut Formatter<'_>) -> FormatResult {
        self.write(out, 0, None, None)
    }
}

impl Item<'_> {
    /// Returns its place.
    pub fn place(&self) -> Place {
        match *self {
            Item::Box(inner) => inner.place(),
            Item::Other(_) => Place::default(),
            Item::Glyph { at, .. }
            | Item::Kern { at, .. }
            | Item::Glue { at, .. }
            | Item::Penalty { at, .. }
            | Item::Rule { at, .. }
            | Item::Special { at, .. } => at,
        }
    }
}

/// As in the lines of `\showbox` (TeX: The Program, sections 186 to 194).
impl Display for Item<'_> {
    fn fmt(&self, out: &mut Formatter<'_>) -> FormatResult {
        match *self {
            Item::Glyph { slot, code, .. } => {
                write!(out, "\\font{slot} ")?;
                write_byte(out, code as u8)
            }
            Item::Kern { width, is_from_font, .. } => write!(out, "\\kern{}{}", if is_from_font { "" } else { " " }, shown(width.0)),
            Item::Glue { glue: Glue { width, plus, minus }, .. } => {
                write!(out, "\\glue {}", shown(width.0))?;
                write_stretch(out, " plus ", plus)?;
                write_stretch(out, " minus ", minus)
            }
            Item::Penalty { penalty, .. } => write!(out, "\\penalty {penalty}"),
            Item::Rule { sizes: BoxSizes { width, height, depth }, running, .. } => {
                let part = |size, runs| if runs { "*".to_string() } else { shown(size) };
                write!(out, "\\rule({}+{})x{}", part(height, running.height), part(depth, running.depth), part(width, running.width))
            }
            Item::Special { text, .. } => {
                out.write_str("\\special{")?;
                text.iter().try_for_each(|it| write_byte(out, *it))?;
                out.write_str("}")
            }
            Item::Box(inner) => Display::fmt(&inner, out),
            Item::Other(kind) => write!(out, "\\unknown{kind}"),
        }
    }
}

/// The totals of a list: of the sizes of its items, and of the stretch and the shrink of each order.
#[derive(Default)]
struct Totals {
    advance: i64,
    stretch: [i64; 4],
    shrink: [i64; 4],
}

impl Totals {
    /// Adds an item. A running size along the list is 0 in its row.
    fn add(&mut self, row: &sys::boxglue_item, is_horizontal: bool) {
        if row.kind == sys::BOXGLUE_ITEM_GLUE {
            self.stretch[order_of(row.stretch_order) as usize] += i64::from(row.stretch);
            self.shrink[order_of(row.shrink_order) as usize] += i64::from(row.shrink);
        }
        let is_amount = matches!(row.kind, sys::BOXGLUE_ITEM_GLUE | sys::BOXGLUE_ITEM_KERN);
        self.advance += if is_horizontal || is_amount { i64::from(row.width) } else { i64::from(row.height) + i64::from(row.depth) };
    }
}

/// The badness of an amount of stretching or shrinking to a total that can be (docs/COMMANDS.md, section 4; TeX: The Program, section 108).
fn badness(amount: u64, total: i64) -> u32 {
    if amount == 0 {
        return 0;
    }
    let total = match u64::try_from(total) {
        Ok(total) if total > 0 => total,
        _ => return WORST,
    };
    let ratio = if amount <= 7_230_584 {
        amount * 297 / total
    } else if total >= 1_663_497 {
        amount / (total / 297)
    } else {
        amount
    };
    if ratio > 1290 {
        WORST
    } else {
        ((ratio.pow(3) + (1 << 17)) >> 18) as u32
    }
}

fn wide(words: sys::boxglue_wide_dimen) -> i128 {
    i128::from(words.low) + (i128::from(words.high) << 64)
}

fn place_of(row: &sys::boxglue_item) -> Place {
    Place { x: wide(row.right), y: wide(row.down) }
}

fn sizes_of(row: &sys::boxglue_item) -> BoxSizes {
    BoxSizes { width: row.width, height: row.height, depth: row.depth }
}

fn order_of(number: u32) -> Order {
    match number {
        0 => Order::Normal,
        1 => Order::Fil,
        2 => Order::Fill,
        _ => Order::Filll,
    }
}

fn stretch_of(amount: i32, order: u32) -> Stretch {
    match order_of(order) {
        Order::Normal => Stretch::Finite(Sp(amount)),
        Order::Fil => Stretch::Fil(Sp(amount)),
        Order::Fill => Stretch::Fill(Sp(amount)),
        Order::Filll => Stretch::Filll(Sp(amount)),
    }
}

fn glue_of(row: &sys::boxglue_item) -> Glue {
    Glue { width: Sp(row.width), plus: stretch_of(row.stretch, row.stretch_order), minus: stretch_of(row.shrink, row.shrink_order) }
}

fn running_of(row: &sys::boxglue_item) -> Running {
    Running { width: row.running & 1 != 0, height: row.running & 2 != 0, depth: row.running & 4 != 0 }
}

/// An amount as TeX prints it, without a unit (TeX: The Program, section 103).
fn shown(amount: i32) -> String {
    let mut text = points(amount);
    text.truncate(text.len() - 2);
    text
}

/// The name of an order in amounts (TeX: The Program, section 177).
fn order_text(order: Order) -> &'static str {
    match order {
        Order::Normal => "",
        Order::Fil => "fil",
        Order::Fill => "fill",
        Order::Filll => "filll",
    }
}

fn write_stretch(out: &mut impl Write, word: &str, stretch: Stretch) -> FormatResult {
    let (amount, order) = match stretch {
        Stretch::Finite(amount) => (amount, Order::Normal),
        Stretch::Fil(amount) => (amount, Order::Fil),
        Stretch::Fill(amount) => (amount, Order::Fill),
        Stretch::Filll(amount) => (amount, Order::Filll),
    };
    if amount == Sp::ZERO {
        Ok(())
    } else {
        write!(out, "{word}{}{}", shown(amount.0), order_text(order))
    }
}

/// Writes a character as TeX prints it (TeX: The Program, section 48).
fn write_byte(out: &mut impl Write, code: u8) -> FormatResult {
    match code {
        b' '..=b'~' => out.write_char(char::from(code)),
        0..=127 => write!(out, "^^{}", char::from(code ^ 64)),
        _ => write!(out, "^^{code:02x}"),
    }
}

/// Writes how the glue of a box is set (TeX: The Program, section 186).
fn write_setting(out: &mut impl Write, setting: GlueSetting) -> FormatResult {
    let (sign, order, num, den) = match setting {
        GlueSetting::Stretching { order, num, den } if num != 0 => ("", order_text(order), i128::from(num), i128::from(den)),
        GlueSetting::Shrinking { order, num, den } if num != 0 => ("- ", order_text(order), i128::from(num), i128::from(den)),
        _ => return Ok(()),
    };
    if num.abs() > MOST_RATIO * den {
        return write!(out, ", glue set {sign}{}{MOST_RATIO}.0{order}", if num > 0 { ">" } else { "< -" });
    }
    let rounded = (2 * POINT * num.abs() + den) / (2 * den);
    write!(out, ", glue set {sign}{}{order}", shown((num.signum() * rounded) as i32))
}

/// For each row the number of the first one after it that is not in its box.
fn ends_of(rows: &[sys::boxglue_item]) -> Result<Vec<usize>, Error> {
    let (mut ends, mut within) = (buffer(rows.len(), rows.len())?, Vec::new());
    for (at, row) in rows.iter().enumerate() {
        within.drain(within.len().min(row.level as usize)..).for_each(|it: usize| ends[it] = at);
        within.push(at);
    }
    Ok(ends)
}

impl Job {
    /// Lists the box in a register with all that is in it, and leaves the job as it was. A void register gives `None`.
    ///
    /// One call of the library lists all items. Views and items are made when you visit them, without copies.
    ///
    /// # Errors
    ///
    /// [`Error::OutOfRange`] for a register above 32,767; [`Error::OutOfMemory`].
    ///
    /// # Examples
    ///
    /// ```
    /// use boxglue::{Error, Item, Job, Sp, Target};
    ///
    /// let mut job = Job::new(&[])?;
    /// let mut page = job.vbox(0, Target::Natural)?;
    /// let mut line = page.hbox(Target::To(Sp::points(9)))?;
    /// line.kern(Sp::points(10))?;
    /// line.end()?;
    /// page.end()?;
    /// let tree = job.inspect(0)?.unwrap();
    /// for line in tree.root().lines() {
    ///     assert_eq!((line.overhang(), line.badness()), (65_536, 1_000_000));
    ///     assert!(matches!(line.items().next(), Some(Item::Kern { width: Sp(655_360), .. })));
    /// }
    /// assert_eq!(tree.to_string(), "\\vbox(0.0+0.0)x9.0\n.\\hbox(0.0+0.0)x9.0\n..\\kern 10.0");
    /// # Ok::<(), Error>(())
    /// ```
    pub fn inspect(&mut self, register: u16) -> Result<Option<BoxTree>, Error> {
        let mut sizes = sys::boxglue_item_sizes { items: ITEM_ROOM, text: TEXT_ROOM };
        loop {
            let (mut rows, mut texts) = (buffer(sizes.items, sys::boxglue_item::default())?, buffer(sizes.text, 0)?);
            match self.items(register, &mut rows, &mut texts, &mut sizes) {
                sys::BOXGLUE_BUFFER_TOO_SMALL => {}
                sys::BOXGLUE_ACCEPTED => {
                    rows.truncate(sizes.items);
                    texts.truncate(sizes.text);
                    let ends = ends_of(&rows)?;
                    return Ok((!rows.is_empty()).then_some(BoxTree { rows, texts, ends }));
                }
                other => return Err(Error::of(other)),
            }
        }
    }
}
