//! Headings 'Paths', 'The lent tables', 'The thirteen calls', 'Walking a path':
//! every limit, named once.

/// 'The lent tables': words of the lent slice.
pub const WORDS: usize = 8512;

/// 'The lent tables': rows of the table of entries.
pub const ENTRY_ROWS: usize = 512;
/// 'The lent tables': words of one entry row.
pub const ENTRY_WORDS: usize = 5;
/// 'The lent tables': first word of the entries.
pub const ENTRY_FIRST: usize = 0;

/// 'The lent tables': rows of the table of nodes, so also the highest node number.
pub const NODE_ROWS: usize = 256;
/// 'The lent tables': words of one node row.
pub const NODE_WORDS: usize = 17;
/// 'The lent tables': first word of the nodes.
pub const NODE_FIRST: usize = 2560;

/// 'The lent tables': rows of the table of holds.
pub const HOLD_ROWS: usize = 256;
/// 'The lent tables': words of one hold row.
pub const HOLD_WORDS: usize = 6;
/// 'The lent tables': first word of the holds.
pub const HOLD_FIRST: usize = 6912;

/// 'The lent tables': rows of the table of processes.
pub const PROCESS_ROWS: usize = 64;
/// 'The lent tables': words of one process row.
pub const PROCESS_WORDS: usize = 1;
/// 'The lent tables': first word of the processes.
pub const PROCESS_FIRST: usize = 8448;

/// 'The lent tables': words of a name block.
pub const NAME_WORDS: usize = 4;

/// 'Paths': most bytes of a path.
pub const PATH_BYTES: usize = 255;
/// 'Paths': most bytes of a name.
pub const NAME_BYTES: usize = 14;
/// 'Paths': most bytes of a link's target.
pub const TARGET_BYTES: usize = 64;

/// 'Walking a path': most links followed in one walk.
pub const LINKS: usize = 8;

/// 'The thirteen calls': bytes of a record before its paths.
pub const HEADER_BYTES: usize = 7;

/// 'What the service covers': the user who is root.
pub const ROOT: u16 = 0;

/// 'Walking a path': the node at which walks start.
pub const START: u16 = 1;

/// 'Numbers given back': stands for the node of an absence.
pub const ABSENCE: u16 = 0;
