// The byte form of the calls: records, requests, answers and their text. Shared by every program of this folder.
pub mod bytes;
pub mod calls;
pub mod making;
pub mod records;
pub mod refusals;
pub mod stream;
pub mod text;
