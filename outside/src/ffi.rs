//! The C interface, as `gwerniloc.h` has it.

use crate::{Answer, Line, Point, Prism, Root, Size, Triangle};

extern "C" {
    pub fn gw_line_at(level: u8, position: u64) -> Answer<Line>;
    pub fn gw_line_position(e: Line) -> Answer<u64>;
    pub fn gw_line_parent(e: Line) -> Answer<Line>;
    pub fn gw_line_child(e: Line, number: u8) -> Answer<Line>;
    pub fn gw_line_successor(e: Line) -> Answer<Line>;
    pub fn gw_line_first_descendant(e: Line, level: u8) -> Answer<Line>;
    pub fn gw_line_last_descendant(e: Line, level: u8) -> Answer<Line>;
    pub fn gw_line_neighbour(e: Line, face: u8) -> Answer<Line>;
    pub fn gw_line_compare(e: Line, f: Line) -> Answer<i32>;
    pub fn gw_line_family(x: *const u32, x_length: usize, level: *const u8, level_length: usize) -> Answer<u64>;

    pub fn gw_triangle_at(level: u8, position: u64) -> Answer<Triangle>;
    pub fn gw_triangle_position(e: Triangle) -> Answer<u64>;
    pub fn gw_triangle_parent(e: Triangle) -> Answer<Triangle>;
    pub fn gw_triangle_child(e: Triangle, number: u8) -> Answer<Triangle>;
    pub fn gw_triangle_successor(e: Triangle) -> Answer<Triangle>;
    pub fn gw_triangle_first_descendant(e: Triangle, level: u8) -> Answer<Triangle>;
    pub fn gw_triangle_last_descendant(e: Triangle, level: u8) -> Answer<Triangle>;
    pub fn gw_triangle_neighbour(e: Triangle, face: u8) -> Answer<Triangle>;
    pub fn gw_triangle_compare(e: Triangle, f: Triangle) -> Answer<i32>;
    pub fn gw_triangle_family(
        x: *const u32,
        x_length: usize,
        y: *const u32,
        y_length: usize,
        level: *const u8,
        level_length: usize,
        kind: *const u8,
        kind_length: usize,
    ) -> Answer<u64>;

    pub fn gw_prism_at(level: u8, position: u64) -> Answer<Prism>;
    pub fn gw_prism_position(e: Prism) -> Answer<u64>;
    pub fn gw_prism_parent(e: Prism) -> Answer<Prism>;
    pub fn gw_prism_child(e: Prism, number: u8) -> Answer<Prism>;
    pub fn gw_prism_successor(e: Prism) -> Answer<Prism>;
    pub fn gw_prism_first_descendant(e: Prism, level: u8) -> Answer<Prism>;
    pub fn gw_prism_last_descendant(e: Prism, level: u8) -> Answer<Prism>;
    pub fn gw_prism_neighbour(e: Prism, face: u8) -> Answer<Prism>;
    pub fn gw_prism_compare(e: Prism, f: Prism) -> Answer<i32>;
    pub fn gw_prism_family(
        x: *const u32,
        x_length: usize,
        y: *const u32,
        y_length: usize,
        z: *const u32,
        z_length: usize,
        level: *const u8,
        level_length: usize,
        kind: *const u8,
        kind_length: usize,
    ) -> Answer<u64>;

    pub fn gw_corner_point(level: u8, position: u64, corner: u8, root: Root) -> Answer<Point>;
    pub fn gw_corner_points(
        level: u8,
        position: *const u64,
        positions: usize,
        corner: u8,
        root: Root,
        x: *mut f64,
        x_length: usize,
        y: *mut f64,
        y_length: usize,
        z: *mut f64,
        z_length: usize,
    ) -> u64;

    pub fn gw_list_check(
        k: u16,
        root: *const u16,
        roots: usize,
        level: *const u8,
        levels: usize,
        position: *const u64,
        positions: usize,
    ) -> u64;
    pub fn gw_list_uniform(
        k: u16,
        level: u8,
        root: *mut u16,
        roots: usize,
        leaf_level: *mut u8,
        levels: usize,
        position: *mut u64,
        positions: usize,
    ) -> Answer<u64>;
    pub fn gw_list_balanced(
        k: u16,
        root: *const u16,
        roots: usize,
        level: *const u8,
        levels: usize,
        position: *const u64,
        positions: usize,
    ) -> Answer<u64>;
    pub fn gw_list_adapt(
        k: u16,
        root: *const u16,
        roots: usize,
        level: *const u8,
        levels: usize,
        position: *const u64,
        positions: usize,
        mark: *const u8,
        marks: usize,
        new_root: *mut u16,
        new_roots: usize,
        new_level: *mut u8,
        new_levels: usize,
        new_position: *mut u64,
        new_positions: usize,
    ) -> Answer<u64>;
    pub fn gw_list_shares(
        k: u16,
        p: u16,
        root: *const u16,
        roots: usize,
        level: *const u8,
        levels: usize,
        position: *const u64,
        positions: usize,
        weight: *const u16,
        weights: usize,
        boundary: *mut u32,
        boundaries: usize,
    ) -> u64;

    pub fn gw_file_write(
        k: u16,
        root: *const u16,
        roots: usize,
        level: *const u8,
        levels: usize,
        position: *const u64,
        positions: usize,
        bytes: *mut u8,
        length: usize,
    ) -> Answer<u64>;
    pub fn gw_file_read(
        bytes: *const u8,
        length: usize,
        root: *mut u16,
        roots: usize,
        level: *mut u8,
        levels: usize,
        position: *mut u64,
        positions: usize,
    ) -> Answer<Size>;
}

#[cfg(test)]
mod tests;
