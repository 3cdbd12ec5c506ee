//! What drafters call a column, in English and Russian.
//!
//! A word that may mean two things names a cell only beside its symbol, as "force N", or none, as "length" and "row".
use lvl_addin::row;

/// The column of names.
pub const MEMBER: &[&str] = &[
    "member",
    "name",
    "mark",
    "element",
    "position",
    "элемент",
    "марка",
    "имя",
    "название",
    "наименование",
    "позиция",
    "поз.",
];

/// The column of names in a sheet of floor beams, beside those of members.
pub const BEAM: &[&str] = &["beam", "floor beam", "балка", "балка перекрытия"];

/// The names of a cell.
pub struct CellNames {
    /// Names the cell alone, before one of its words and after it; empty where there is none.
    pub symbol: &'static str,
    pub words: &'static [&'static str],
    /// Words that name the cell only with the symbol beside them.
    pub beside_symbol: &'static [&'static str],
    /// Whether they have a symbol with a small n, which is not the N of forces.
    pub has_small_n: bool,
    /// Whether it is a ratio: a heading with pieces for a unit is of a count.
    pub is_ratio: bool,
}

const fn symbol(
    symbol: &'static str,
    words: &'static [&'static str],
    beside_symbol: &'static [&'static str],
) -> CellNames {
    CellNames {
        symbol,
        words,
        beside_symbol,
        has_small_n: false,
        is_ratio: false,
    }
}

const fn with_small_n(names: CellNames) -> CellNames {
    CellNames {
        has_small_n: true,
        ..names
    }
}

const fn ratio(names: CellNames) -> CellNames {
    CellNames {
        is_ratio: true,
        ..names
    }
}

const fn words(words: &'static [&'static str]) -> CellNames {
    symbol("", words, &[])
}

/// The cells of a row, cell 1 first.
#[rustfmt::skip]
pub const CELLS: [CellNames; row::CELLS] = [
    words(&["kind", "type", "вид", "тип", "вид элемента", "тип элемента", "вид работы", "напряжённое состояние"]),
    words(&["grade", "strength grade", "strength class", "сорт", "класс", "класс прочности"]),
    words(&["regime", "load regime", "loading regime", "режим", "режим нагружения"]),
    words(&["moisture", "moisture content", "влажность", "влажность древесины", "эксплуатационная влажность"]),
    words(&["factor", "office factor", "коэффициент", "коэф.", "коэфф.", "коэффициент бюро",
            "произведение коэффициентов", "понижающий коэффициент"]),
    symbol("b", &["width", "ширина", "ширина сечения"], &[]),
    symbol("h", &["height", "depth", "высота", "высота сечения"], &[]),
    symbol("N", &["axial force", "normal force", "продольная сила", "продольное усилие", "нормальная сила",
                  "осевая сила"],
           &["force", "сила", "усилие"]),
    symbol("M", &["moment", "bending moment", "момент", "изгибающий момент"], &[]),
    symbol("Q", &["shear", "shear force", "поперечная сила", "перерезывающая сила"], &["force", "сила", "усилие"]),
    symbol("Lh", &["effective length across h", "расчётная длина поперёк h"],
           &["length", "effective length", "длина", "расчётная длина"]),
    symbol("Lb", &["effective length across b", "расчётная длина поперёк b"],
           &["length", "effective length", "длина", "расчётная длина"]),
    words(&["Table 16 row", "row of Table 16", "Table 16", "строка таблицы 16", "строка табл. 16",
            "таблица 16 строка", "табл. 16 строка", "таблица 16", "табл. 16"]),
    symbol("a", &["side piece", "side piece thickness", "накладка", "толщина накладки"], &["thickness", "толщина"]),
    symbol("d", &["diameter", "dowel diameter", "диаметр", "диаметр нагеля", "диаметр нагелей"], &[]),
    symbol("r", &["dowels across", "нагелей поперёк", "число нагелей поперёк", "нагелей в ряду",
                  "число нагелей в ряду"], &[]),
    words(&["joint length", "length of joint", "длина соединения", "длина стыка"]),
    symbol("kc", &["смятие среднего элемента"], &["Table 18", "коэффициент"]),
    symbol("ka", &["смятие крайнего элемента"], &["Table 18", "коэффициент"]),
    symbol("kb", &[], &["Table 18", "коэффициент", "изгиб нагеля"]),
    symbol("ke", &[], &["Table 18", "коэффициент", "изгиб нагеля"]),
    symbol("km", &["наибольший изгиб нагеля"], &["Table 18", "коэффициент"]),
];

/// The loads of a floor beam and its span. A permanent load or a long-term one alone, and an imposed load, which may have
/// a long-term part, name nothing: more than the regime's 80 percent would be taken for less.
#[rustfmt::skip]
pub const FLOOR: [CellNames; 3] = [
    words(&["permanent and long-term load", "permanent and long-term loads", "permanent and long-term",
            "permanent and long term load", "permanent + long-term load", "permanent + long-term",
            "постоянная и длительная нагрузка", "постоянная и длительная", "постоянные и длительные нагрузки",
            "постоянные и длительные", "постоянная и временная длительная нагрузка",
            "постоянная и временная длительная", "постоянная + длительная нагрузка", "постоянная + длительная"]),
    words(&["remaining load", "remaining loads", "remaining", "short-term load", "short-term loads", "short term load",
            "остальная нагрузка", "остальные нагрузки", "остальная", "кратковременная нагрузка",
            "кратковременные нагрузки", "кратковременная", "кратковременная остальная нагрузка",
            "остальная кратковременная нагрузка"]),
    symbol("L", &["span", "design span", "effective span", "пролёт", "расчётный пролёт", "пролёт балки"], &[]),
];

/// What a floor beam has for its sag. A moment alone may be that of design loads, and a limit alone one in mm.
#[rustfmt::skip]
pub const SAG: [CellNames; 2] = [
    with_small_n(symbol("Mn", &["unfactored moment", "unfactored bending moment", "characteristic moment",
                                "characteristic bending moment", "moment of unfactored loads", "нормативный момент",
                                "нормативный изгибающий момент", "момент от нормативных нагрузок",
                                "изгибающий момент от нормативных нагрузок", "Мн", "момент Мн",
                                "нормативный момент Мн"],
                        &["moment", "bending moment", "момент", "изгибающий момент"])),
    ratio(with_small_n(words(&["n", "span/n", "L/n", "limit n", "limit of span/n", "limit span/n", "limit L/n",
                               "sag limit n", "deflection limit n", "пролёт/n", "предел n", "предел прогиба n",
                               "предел прогиба l/n", "предельный прогиб n", "предельный прогиб l/n"]))),
];

impl CellNames {
    /// All names, spelt out.
    pub fn all(&self) -> Vec<String> {
        let symbol = self.symbol;
        if symbol.is_empty() {
            return self.words.iter().map(|word| word.to_string()).collect();
        }
        let with_symbol = self.words.iter().chain(self.beside_symbol);
        [symbol]
            .iter()
            .chain(self.words)
            .map(|name| name.to_string())
            .chain(
                with_symbol
                    .flat_map(|word| [format!("{word} {symbol}"), format!("{symbol} {word}")]),
            )
            .collect()
    }
}
