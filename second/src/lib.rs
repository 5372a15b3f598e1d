//! RTP pause and resume: document 01, and document 02's requests "One" and "Two", written down a
//! second time.
//!
//! The modules follow the documents' headings, so that each can be held against its section; the
//! console has its own, and so have the generators and the counters.

pub mod console;
pub mod count;
pub mod line;
pub mod load;
pub mod make;
pub mod packet;
pub mod random;
pub mod receiver;
pub mod receiver_frames;
pub mod refusal;
pub mod remote;
pub mod row;
pub mod stream;
pub mod table;
