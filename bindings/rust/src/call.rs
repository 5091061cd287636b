//! The one place that puts a unit's numbers and lists in the order of the library's functions.

/// Calls a function of the library that opens or restores a unit, lent a filter, classes, or a filter and luma.
macro_rules! call {
    ($name:ident, $plane:expr, $unit:expr, $borders:expr, $skip:expr, filter $filter:expr) => {
        call!($name, $plane, $unit, $borders, $skip, [$filter])
    };
    ($name:ident, $plane:expr, $unit:expr, $borders:expr, $skip:expr, classes $classes:expr) => {{
        let c = $classes;
        call!(
            $name,
            $plane,
            $unit,
            $borders,
            $skip,
            [c.filters, c.map, c.subclass, c.noskip, c.base_q]
        )
    }};
    ($name:ident, $plane:expr, $unit:expr, $borders:expr, $skip:expr, filter $filter:expr, luma $place:expr, $luma:expr) => {{
        let (at, luma) = ($place, $luma);
        call!(
            $name,
            $plane,
            $unit,
            $borders,
            $skip,
            [
                $filter, luma.plane, at.off, at.stride, luma.top, at.top_off, luma.bottom, at.bottom_off, at.ss_hor,
                at.ss_ver, at.kind
            ]
        )
    }};
    ($name:ident, $plane:expr, $unit:expr, $borders:expr, $skip:expr, [$($own:expr),*]) => {{
        let (u, b) = ($unit, $borders);
        $crate::raw::$name(
            $plane, u.off, u.stride, b.left, b.top, u.top_off, b.bottom, u.bottom_off, u.w, u.h, $($own,)* u.edges, $skip,
        )
    }};
}

pub(crate) use call;
