//! The calls of the proved library, made safe. The only unsafe code stands here.

/// The bytes of a study's image.
pub const STUDY_BYTES: usize = 2087;

/// The bytes of the longest study that is written.
pub const LONGEST_STUDY: usize = 2023;

/// Room for any list of paths.
pub const LIST_BYTES: usize = 53_248;

/// Room for any report.
pub const REPORT_BYTES: usize = 180_224;

/// The places that class bounds, and a report beside its text, need in each slice.
pub const CLASS_PLACES: usize = 256;

/// A lower and an upper bound.
#[derive(Clone, Copy, Debug, Default, PartialEq)]
pub struct Bounds {
    pub lower: u64,
    pub upper: u64,
}

/// The lower one first.
impl From<[u64; 2]> for Bounds {
    fn from([lower, upper]: [u64; 2]) -> Bounds {
        Bounds { lower, upper }
    }
}

/// SAIFI in units, SAIDI in billionths of a minute, CAIDI in whole minutes, MAIFI in units.
#[derive(Clone, Copy, Debug, Default, PartialEq)]
pub struct Figures {
    pub saifi: Bounds,
    pub saidi: Bounds,
    pub caidi: Bounds,
    pub maifi: Bounds,
}

/// The chances of surviving and of failure, in units.
#[derive(Clone, Copy, Debug, Default, PartialEq)]
pub struct Chances {
    pub survival: Bounds,
    pub failure: Bounds,
}

/// A result, or the number of the refusal table by which the call was refused.
pub type Answer<T> = Result<T, u8>;

extern "C" {
    fn grid_open(bytes: *const u8, size: usize, study: *mut u8, room: usize) -> i64;
    fn grid_set_probabilities(
        study: *mut u8,
        size: usize,
        component: usize,
        p1: u32,
        p2: u32,
        p3: u32,
    ) -> i64;
    fn grid_set_customers(study: *mut u8, size: usize, load: usize, customers: u32) -> i64;
    fn grid_set_minutes(study: *mut u8, size: usize, load: usize, minutes: u32) -> i64;
    fn grid_write(study: *const u8, size: usize, bytes: *mut u8, room: usize) -> i64;
    fn grid_list_paths(study: *const u8, size: usize, buffer: *mut u8, room: usize) -> i64;
    fn grid_path_bounds(
        study: *const u8,
        size: usize,
        lower: *mut u64,
        lower_room: usize,
        upper: *mut u64,
        upper_room: usize,
    ) -> i64;
    fn grid_class_bounds(
        study: *const u8,
        size: usize,
        lower: *mut u64,
        lower_room: usize,
        upper: *mut u64,
        upper_room: usize,
    ) -> i64;
    fn grid_load_bounds(
        study: *const u8,
        size: usize,
        load: usize,
        lower: *mut u64,
        upper: *mut u64,
    ) -> i64;
    fn grid_figures(
        study: *const u8,
        size: usize,
        saifi_lower: *mut u64,
        saifi_upper: *mut u64,
        saidi_lower: *mut u64,
        saidi_upper: *mut u64,
        caidi_lower: *mut u64,
        caidi_upper: *mut u64,
        maifi_lower: *mut u64,
        maifi_upper: *mut u64,
    ) -> i64;
    fn grid_drawn_list_paths(
        study: *const u8,
        size: usize,
        tree: *const u8,
        tree_size: usize,
        buffer: *mut u8,
        room: usize,
    ) -> i64;
    fn grid_drawn_path_bounds(
        study: *const u8,
        size: usize,
        tree: *const u8,
        tree_size: usize,
        lower: *mut u64,
        lower_room: usize,
        upper: *mut u64,
        upper_room: usize,
    ) -> i64;
    fn grid_drawn_class_bounds(
        study: *const u8,
        size: usize,
        tree: *const u8,
        tree_size: usize,
        lower: *mut u64,
        lower_room: usize,
        upper: *mut u64,
        upper_room: usize,
    ) -> i64;
    fn grid_drawn_load_bounds(
        study: *const u8,
        size: usize,
        tree: *const u8,
        tree_size: usize,
        load: usize,
        lower: *mut u64,
        upper: *mut u64,
    ) -> i64;
    fn grid_drawn_figures(
        study: *const u8,
        size: usize,
        tree: *const u8,
        tree_size: usize,
        saifi_lower: *mut u64,
        saifi_upper: *mut u64,
        saidi_lower: *mut u64,
        saidi_upper: *mut u64,
        caidi_lower: *mut u64,
        caidi_upper: *mut u64,
        maifi_lower: *mut u64,
        maifi_upper: *mut u64,
    ) -> i64;
    fn grid_survival(
        fit: u32,
        hours: u32,
        survival_lower: *mut u64,
        survival_upper: *mut u64,
        failure_lower: *mut u64,
        failure_upper: *mut u64,
    ) -> i64;
    fn grid_loads_lost(class: u8) -> i64;
    fn grid_report(
        bytes: *const u8,
        size: usize,
        text: *mut u8,
        room: usize,
        lower: *mut u64,
        lower_room: usize,
        upper: *mut u64,
        upper_room: usize,
    ) -> i64;
    fn grid_refusal_word(number: u8, text: *mut u8, room: usize) -> i64;
}

/// The library answers a count or 0, and a refusal as its number below 0.
fn answer(number: i64) -> Answer<usize> {
    match usize::try_from(number) {
        Ok(count) => Ok(count),
        Err(_) => Err(u8::try_from(-number).expect("a refusal has a number of the table")),
    }
}

// Each pointer below stands beside the length of the slice that it is taken from, or points to one number; what is lent to be written is borrowed alone.

/// Opens the bytes of a study and writes its image. Refused by 1 to 15, then 18.
pub fn open(bytes: &[u8], study: &mut [u8]) -> Answer<usize> {
    answer(unsafe { grid_open(bytes.as_ptr(), bytes.len(), study.as_mut_ptr(), study.len()) })
}

/// Sets how likely states 1 to 3 of a component are. Refused by 16, 17, 5, 6.
pub fn set_probabilities(study: &mut [u8], component: usize, p: [u32; 3]) -> Answer<usize> {
    let (place, size) = (study.as_mut_ptr(), study.len());
    answer(unsafe { grid_set_probabilities(place, size, component, p[0], p[1], p[2]) })
}

/// Sets the customers of a load. Refused by 16, 17, 14.
pub fn set_customers(study: &mut [u8], load: usize, customers: u32) -> Answer<usize> {
    answer(unsafe { grid_set_customers(study.as_mut_ptr(), study.len(), load, customers) })
}

/// Sets the restore time of a load. Refused by 16, 17, 14.
pub fn set_minutes(study: &mut [u8], load: usize, minutes: u32) -> Answer<usize> {
    answer(unsafe { grid_set_minutes(study.as_mut_ptr(), study.len(), load, minutes) })
}

/// Writes a study out as bytes, and answers how many they are. Refused by 16, 18.
pub fn write(study: &[u8], bytes: &mut [u8]) -> Answer<usize> {
    answer(unsafe { grid_write(study.as_ptr(), study.len(), bytes.as_mut_ptr(), bytes.len()) })
}

/// Lists the paths at the front of a buffer, and answers how many there are. Refused by 16, 18.
pub fn list_paths(study: &[u8], buffer: &mut [u8]) -> Answer<usize> {
    answer(unsafe {
        grid_list_paths(
            study.as_ptr(),
            study.len(),
            buffer.as_mut_ptr(),
            buffer.len(),
        )
    })
}

/// The calls for bounds of paths and of classes, which take the same.
type Bounding = unsafe extern "C" fn(*const u8, usize, *mut u64, usize, *mut u64, usize) -> i64;

fn bound(call: Bounding, study: &[u8], lower: &mut [u64], upper: &mut [u64]) -> Answer<usize> {
    answer(unsafe {
        call(
            study.as_ptr(),
            study.len(),
            lower.as_mut_ptr(),
            lower.len(),
            upper.as_mut_ptr(),
            upper.len(),
        )
    })
}

/// Writes the bounds of each path, and answers how many there are. Refused by 16, 18.
pub fn path_bounds(study: &[u8], lower: &mut [u64], upper: &mut [u64]) -> Answer<usize> {
    bound(grid_path_bounds, study, lower, upper)
}

/// Writes the bounds of each class at places 0 to 255. Refused by 16, 18.
pub fn class_bounds(study: &[u8], lower: &mut [u64], upper: &mut [u64]) -> Answer<usize> {
    bound(grid_class_bounds, study, lower, upper)
}

/// Writes the bounds for the loss of a load. Refused by 16, 17.
pub fn load_bounds(study: &[u8], load: usize, lower: &mut u64, upper: &mut u64) -> Answer<usize> {
    answer(unsafe { grid_load_bounds(study.as_ptr(), study.len(), load, lower, upper) })
}

/// Writes the figures, and answers how many are stated: 4, or 3 without CAIDI, whose bounds then stay. Refused by 16, 19.
pub fn figures(study: &[u8], figures: &mut Figures) -> Answer<usize> {
    answer(unsafe {
        grid_figures(
            study.as_ptr(),
            study.len(),
            &mut figures.saifi.lower,
            &mut figures.saifi.upper,
            &mut figures.saidi.lower,
            &mut figures.saidi.upper,
            &mut figures.caidi.lower,
            &mut figures.caidi.upper,
            &mut figures.maifi.lower,
            &mut figures.maifi.upper,
        )
    })
}

/// Lists the paths by a drawn tree in place of the study's gates, and answers how many there are. Refused by 16, 20 to 22, 18.
pub fn drawn_list_paths(study: &[u8], tree: &[u8], buffer: &mut [u8]) -> Answer<usize> {
    answer(unsafe {
        grid_drawn_list_paths(
            study.as_ptr(),
            study.len(),
            tree.as_ptr(),
            tree.len(),
            buffer.as_mut_ptr(),
            buffer.len(),
        )
    })
}

/// The same calls with a drawn tree.
type DrawnBounding = unsafe extern "C" fn(
    *const u8,
    usize,
    *const u8,
    usize,
    *mut u64,
    usize,
    *mut u64,
    usize,
) -> i64;

fn bound_drawn(
    call: DrawnBounding,
    study: &[u8],
    tree: &[u8],
    lower: &mut [u64],
    upper: &mut [u64],
) -> Answer<usize> {
    answer(unsafe {
        call(
            study.as_ptr(),
            study.len(),
            tree.as_ptr(),
            tree.len(),
            lower.as_mut_ptr(),
            lower.len(),
            upper.as_mut_ptr(),
            upper.len(),
        )
    })
}

/// Writes the bounds of each path by a drawn tree, and answers how many there are. Refused by 16, 20 to 22, 18.
pub fn drawn_path_bounds(
    study: &[u8],
    tree: &[u8],
    lower: &mut [u64],
    upper: &mut [u64],
) -> Answer<usize> {
    bound_drawn(grid_drawn_path_bounds, study, tree, lower, upper)
}

/// Writes the bounds of each class by a drawn tree at places 0 to 255. Refused by 16, 20 to 22, 18.
pub fn drawn_class_bounds(
    study: &[u8],
    tree: &[u8],
    lower: &mut [u64],
    upper: &mut [u64],
) -> Answer<usize> {
    bound_drawn(grid_drawn_class_bounds, study, tree, lower, upper)
}

/// Writes the bounds for the loss of a load by a drawn tree. Refused by 16, 17, 20 to 22.
pub fn drawn_load_bounds(
    study: &[u8],
    tree: &[u8],
    load: usize,
    lower: &mut u64,
    upper: &mut u64,
) -> Answer<usize> {
    answer(unsafe {
        grid_drawn_load_bounds(
            study.as_ptr(),
            study.len(),
            tree.as_ptr(),
            tree.len(),
            load,
            lower,
            upper,
        )
    })
}

/// Writes the figures by a drawn tree, and answers how many are stated. Refused by 16, 20 to 22, 19.
pub fn drawn_figures(study: &[u8], tree: &[u8], figures: &mut Figures) -> Answer<usize> {
    answer(unsafe {
        grid_drawn_figures(
            study.as_ptr(),
            study.len(),
            tree.as_ptr(),
            tree.len(),
            &mut figures.saifi.lower,
            &mut figures.saifi.upper,
            &mut figures.saidi.lower,
            &mut figures.saidi.upper,
            &mut figures.caidi.lower,
            &mut figures.caidi.upper,
            &mut figures.maifi.lower,
            &mut figures.maifi.upper,
        )
    })
}

/// Writes the bounds for the chance of surviving so many hours at a rate in FIT, and those for a failure in them. Refused by 23.
pub fn survival(fit: u32, hours: u32, chances: &mut Chances) -> Answer<usize> {
    let Chances { survival, failure } = chances;
    answer(unsafe {
        grid_survival(
            fit,
            hours,
            &mut survival.lower,
            &mut survival.upper,
            &mut failure.lower,
            &mut failure.upper,
        )
    })
}

/// How many loads are lost in a class. Never refused.
pub fn loads_lost(class: u8) -> Answer<usize> {
    answer(unsafe { grid_loads_lost(class) })
}

/// Writes the report of a study's bytes, and where it opens the bounds of each class at places 0 to 255; answers the length of the report. Refused by 18.
pub fn report(
    bytes: &[u8],
    text: &mut [u8],
    lower: &mut [u64],
    upper: &mut [u64],
) -> Answer<usize> {
    answer(unsafe {
        grid_report(
            bytes.as_ptr(),
            bytes.len(),
            text.as_mut_ptr(),
            text.len(),
            lower.as_mut_ptr(),
            lower.len(),
            upper.as_mut_ptr(),
            upper.len(),
        )
    })
}

/// Writes the word of a refusal, and answers its length, 0 for a number that the table lacks. Refused by 18.
pub fn refusal_word(number: u8, text: &mut [u8]) -> Answer<usize> {
    answer(unsafe { grid_refusal_word(number, text.as_mut_ptr(), text.len()) })
}
