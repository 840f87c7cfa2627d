//! include/wulgranite.h, as Rust names it.

extern "C" {
    pub fn wg_incidence(
        n: usize,
        ends: *const u16,
        ends_len: usize,
        starts: *mut u16,
        starts_len: usize,
        entries: *mut u16,
        entries_len: usize,
        total: *mut usize,
    ) -> u32;
    pub fn wg_two_color(
        n: usize,
        ends: *const u16,
        ends_len: usize,
        colors: *mut u8,
        colors_len: usize,
        days: *mut usize,
    ) -> u32;
    pub fn wg_greedy_node_color(
        n: usize,
        ends: *const u16,
        ends_len: usize,
        colors: *mut u16,
        colors_len: usize,
        days: *mut usize,
    ) -> u32;
    pub fn wg_greedy_node_color_with_preset_colors(
        n: usize,
        ends: *const u16,
        ends_len: usize,
        presets: *const u16,
        presets_len: usize,
        colors: *mut u16,
        colors_len: usize,
        days: *mut usize,
    ) -> u32;
    pub fn wg_greedy_node_color_with_coloring_strategy(
        n: usize,
        ends: *const u16,
        ends_len: usize,
        presets: *const u16,
        presets_len: usize,
        strategy: u8,
        colors: *mut u16,
        colors_len: usize,
        days: *mut usize,
    ) -> u32;
    pub fn wg_greedy_edge_color(
        n: usize,
        ends: *const u16,
        ends_len: usize,
        colors: *mut u16,
        colors_len: usize,
        days: *mut usize,
    ) -> u32;
    pub fn wg_greedy_edge_color_with_coloring_strategy(
        n: usize,
        ends: *const u16,
        ends_len: usize,
        presets: *const u16,
        presets_len: usize,
        strategy: u8,
        colors: *mut u16,
        colors_len: usize,
        days: *mut usize,
    ) -> u32;
    pub fn wg_line_graph(
        n: usize,
        ends: *const u16,
        ends_len: usize,
        list: *mut u16,
        list_len: usize,
        pairs: *mut usize,
    ) -> u32;
    pub fn wg_misra_gries_edge_color(
        n: usize,
        ends: *const u16,
        ends_len: usize,
        colors: *mut u16,
        colors_len: usize,
        days: *mut usize,
    ) -> u32;
    pub fn wg_misra_gries_add_edge(
        n: usize,
        ends: *const u16,
        ends_len: usize,
        stored: *const u16,
        stored_len: usize,
        colors: *mut u16,
        colors_len: usize,
        days: *mut usize,
    ) -> u32;
    pub fn wg_fewer_days(
        first: *const u16,
        first_len: usize,
        second: *const u16,
        second_len: usize,
        m: usize,
        length: *mut usize,
    ) -> u32;
    pub fn wg_read_graph_file(
        bytes: *const u8,
        bytes_len: usize,
        ends: *mut u16,
        ends_len: usize,
        colors: *mut u16,
        colors_len: usize,
        nodes: *mut usize,
        edges: *mut usize,
        tags: *mut usize,
        method: *mut usize,
    ) -> u32;
    pub fn wg_write_graph_file(
        n: usize,
        ends: *const u16,
        ends_len: usize,
        colors: *const u16,
        colors_len: usize,
        tags: u8,
        method: u8,
        output: *mut u8,
        output_len: usize,
        length: *mut usize,
    ) -> u32;
}
