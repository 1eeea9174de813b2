//! new, check, report: commands on a volume as a whole.

use std::convert::TryFrom;

use lentilraft::{ChunkSize, Rooms};

use super::{flag, option};
use crate::args::{Arguments, Command, Run};
use crate::failure::{About, Failure, Outcome};
use crate::store::{self, Volume};
use crate::text;

pub const NEW: Command = Command {
    name: "new",
    about: "make a volume",
    places: "VOLUME",
    options: &[
        option(
            "--size",
            "SIZE",
            "how large the file is (64M, unless --chunks is given)",
        ),
        option(
            "--nodes",
            "COUNT",
            "room for folders and files, the root among them",
        ),
        option("--entries", "COUNT", "room for names"),
        option("--chunks", "COUNT", "room for chunks of files"),
        option("--chunk-size", "SIZE", CHUNK_SIZES),
        flag("--force", "replace what is there, whatever it is"),
    ],
    details: "\
Files take room by whole chunks, and a gap of whole chunks takes none. Each room is 1 to 4096 and
stays as it is made. With --size alone the chunks are the smallest with which the size can be used,
and there is room for as many nodes and names as for chunks. With --chunks and no --size, the file
is as large as its chunks need. The volume's zeros take no room on the host's disk.",
    example: "lentil new traces.vol --size 64M",
    run: Run::Plain(new),
};

pub const CHECK: Command = Command {
    name: "check",
    about: "say whether a file is a sound volume",
    places: "VOLUME",
    options: &[],
    details: "\
Every other command does the same before anything else, and refuses a file that is not one.",
    example: "lentil check traces.vol",
    run: Run::Plain(check),
};

pub const REPORT: Command = Command {
    name: "report",
    about: "show the volume's numbers",
    places: "VOLUME",
    options: &[],
    details: "\
Lines key=value: format, chunk size, nodes, entries and chunks in use, freed chunks, the next chunk
that was never used, and the next node's number.",
    example: "lentil report traces.vol",
    run: Run::Plain(report),
};

const DEFAULT_SIZE: u64 = 64 << 20;
const DEFAULT_CHUNK_SIZE: ChunkSize = ChunkSize::K16;
const CHUNK_SIZES: &str = "4k, 8k, 16k, 32k or 64k";
const GREATEST_ROOM: u64 = 4096;

/// Small volumes get room for so many nodes and entries, also where they have fewer chunks.
const LEAST_ROOM: u64 = 16;

fn new(arguments: &Arguments) -> Outcome<()> {
    let wish = Wish::of(arguments)?;
    let plan = wish.plan()?;
    let path = arguments.place(0);
    let bytes = vec![0; plan.length as usize];
    let volume = Volume::new(bytes, plan.rooms, plan.chunk_size).about(path)?;
    store::save_new(path, &volume, arguments.has("--force"))
}

fn check(arguments: &Arguments) -> Outcome<()> {
    let path = arguments.place(0);
    store::read(path)?;
    text::print(b"sound\n")
}

fn report(arguments: &Arguments) -> Outcome<()> {
    let path = arguments.place(0);
    let report = store::read(path)?.report().about(path)?;
    text::print(report.as_bytes())
}

/// What the command line says of a new volume.
struct Wish {
    size: Option<u64>,
    nodes: Option<u64>,
    entries: Option<u64>,
    chunks: Option<u64>,
    chunk_size: Option<ChunkSize>,
}

/// What it comes to.
#[derive(Debug, PartialEq)]
struct Plan {
    rooms: Rooms,
    chunk_size: ChunkSize,
    length: u64,
}

impl Wish {
    fn of(arguments: &Arguments) -> Outcome<Wish> {
        Ok(Wish {
            size: arguments.size("--size")?,
            nodes: room(arguments, "--nodes")?,
            entries: room(arguments, "--entries")?,
            chunks: room(arguments, "--chunks")?,
            chunk_size: chunk_size(arguments)?,
        })
    }

    fn plan(&self) -> Outcome<Plan> {
        match self.chunks {
            Some(chunks) => self.plan_by_chunks(chunks),
            None => self.plan_by_size(self.size.unwrap_or(DEFAULT_SIZE)),
        }
    }

    fn plan_by_chunks(&self, chunks: u64) -> Outcome<Plan> {
        let rooms = self.rooms(chunks);
        let chunk_size = self.chunk_size.unwrap_or(DEFAULT_CHUNK_SIZE);
        let most = rooms.length_for(chunk_size);
        let length = self.size.unwrap_or(most);
        demand_size(length, rooms.least_length(), most)?;
        Ok(Plan {
            rooms,
            chunk_size,
            length,
        })
    }

    /// As many chunks as go into the size, and the smallest that can use it up.
    fn plan_by_size(&self, length: u64) -> Outcome<Plan> {
        let most = |size: ChunkSize| self.rooms(GREATEST_ROOM).length_for(size);
        let mut sizes = ChunkSize::ALL.into_iter();
        let enough = sizes.find(|size| most(*size) >= length);
        let chunk_size = self.chunk_size.or(enough).unwrap_or(ChunkSize::K64);
        demand_size(length, self.rooms(1).least_length(), most(chunk_size))?;
        let fits = |chunks: &u64| self.rooms(*chunks).length_for(chunk_size) <= length;
        let chunks = (1..=GREATEST_ROOM).rev().find(fits).unwrap_or(1);
        Ok(Plan {
            rooms: self.rooms(chunks),
            chunk_size,
            length,
        })
    }

    fn rooms(&self, chunks: u64) -> Rooms {
        let names = chunks.max(LEAST_ROOM);
        Rooms {
            nodes: self.nodes.unwrap_or(names),
            entries: self.entries.unwrap_or(names),
            chunks,
        }
    }
}

/// Bytes that no chunk could use are no use, so that a size above the most is a mistake.
fn demand_size(length: u64, least: u64, most: u64) -> Outcome<()> {
    let (bound, number) = match length {
        _ if length < least => ("least", least),
        _ if length > most => ("most", most),
        _ => return Ok(()),
    };
    let reason = format!(
        "--size is at {} {} for such a volume, not {}",
        bound, number, length
    );
    Err(Failure::usage(reason))
}

fn room(arguments: &Arguments, switch: &str) -> Outcome<Option<u64>> {
    match arguments.size(switch)? {
        Some(room) if !(1..=GREATEST_ROOM).contains(&room) => Err(Failure::usage(format!(
            "{} is 1 to {}, not {}",
            switch, GREATEST_ROOM, room
        ))),
        room => Ok(room),
    }
}

fn chunk_size(arguments: &Arguments) -> Outcome<Option<ChunkSize>> {
    let bytes = arguments.size("--chunk-size")?;
    let size = bytes.map(ChunkSize::try_from).transpose();
    size.map_err(|_| Failure::usage(format!("--chunk-size is {}", CHUNK_SIZES)))
}

#[cfg(test)]
mod tests {
    use super::*;

    fn wish(size: Option<u64>, chunks: Option<u64>) -> Wish {
        Wish {
            size,
            nodes: None,
            entries: None,
            chunks,
            chunk_size: None,
        }
    }

    fn by_size(size: u64) -> Plan {
        wish(Some(size), None).plan().unwrap()
    }

    #[test]
    fn the_smallest_chunks_that_use_a_size_are_taken() {
        assert_eq!(by_size(16 << 20).chunk_size, ChunkSize::K4);
        assert_eq!(by_size(32 << 20).chunk_size, ChunkSize::K8);
        assert_eq!(by_size(64 << 20).chunk_size, ChunkSize::K16);
        assert_eq!(by_size(128 << 20).chunk_size, ChunkSize::K32);
        assert_eq!(by_size(256 << 20).chunk_size, ChunkSize::K64);
    }

    #[test]
    fn the_next_chunk_size_is_taken_where_one_ends() {
        let rooms = wish(None, None).rooms(GREATEST_ROOM);
        for pair in ChunkSize::ALL.windows(2) {
            let most = rooms.length_for(pair[0]);
            assert_eq!(by_size(most).chunk_size, pair[0]);
            assert_eq!(by_size(most + 1).chunk_size, pair[1]);
        }
    }

    #[test]
    fn the_help_names_every_chunk_size() {
        let listed = CHUNK_SIZES.replace(" or", ",");
        let named: Vec<&str> = listed.split(", ").collect();
        let sizes = ChunkSize::ALL.map(|size| text::short_size(size.bytes()));
        assert_eq!(named, sizes);
    }

    #[test]
    fn all_chunks_of_a_size_can_be_in_use() {
        let sizes = [1, 16, 30, 64, 120, 250].map(|size| size << 20);
        for size in sizes.into_iter().chain([80_000]) {
            let plan = by_size(size);
            assert_eq!(plan.length, size);
            assert!(plan.rooms.length_for(plan.chunk_size) <= size);
            let more = Rooms {
                chunks: plan.rooms.chunks + 1,
                ..plan.rooms
            };
            assert!(
                more.chunks > GREATEST_ROOM
                    || wish(None, None)
                        .rooms(more.chunks)
                        .length_for(plan.chunk_size)
                        > size
            );
        }
    }

    #[test]
    fn sizes_that_no_volume_has_are_refused() {
        assert!(wish(Some(70_000), None).plan().is_err());
        assert!(wish(Some(1 << 30), None).plan().is_err());
        assert!(wish(Some(70_000), Some(16)).plan().is_err());
        assert!(wish(Some(64 << 20), Some(16)).plan().is_err());
    }

    #[test]
    fn with_chunks_alone_the_length_is_what_they_need() {
        let plan = wish(None, Some(100)).plan().unwrap();
        let rooms = Rooms {
            nodes: 100,
            entries: 100,
            chunks: 100,
        };
        assert_eq!(
            plan,
            Plan {
                rooms,
                chunk_size: ChunkSize::K16,
                length: rooms.length_for(ChunkSize::K16)
            }
        );
    }
}
