//! The three commands.
use super::*;

pub(crate) fn encode(options: &Options) -> Answer<(i32, String)> {
    let shape = Shape::read(options)?;
    let e = options.number("symbol", 1, 65535, 1024)?;
    let block = options.number("block", 1, 65536, 1000)?;
    let max_n = options.number("max-n", block, 65536, (block * 3 / 2).min(65536))?;
    let all = object()?;
    let head = Header { shape, length: all.len(), e, block, max_n };
    let plan = Plan::new(&head, false)?;
    let mut store = Store::new(e, all);
    store.all.resize(plan.symbols * e, 0);
    let mut output = Output::new()?;
    output.buffer.extend(head.bytes());
    let mut packets = 0;
    for (number, &(code, place)) in plan.blocks.iter().enumerate() {
        let code = &plan.codes[code];
        code.fill(&mut store, place);
        for column in 0..code.n {
            let symbol = &store.all[place.of(column, e)..][..e];
            output.packet((number << 20 | column) as u32, symbol)?;
        }
        packets += code.n;
    }
    output.flush()?;
    Ok((0, format!("blocks {}\npackets {packets}\n", plan.blocks.len())))
}

/// Standard input to its end. Of an input that is too long one byte more than it may have.
pub(crate) fn object() -> Answer<Vec<u8>> {
    let file = file(io::stdin().as_fd(), 3, "read")?;
    let size = file.metadata().map_or(0, |data| data.len()).min(1 << 28) as usize;
    let mut all = Vec::with_capacity(size + (1 << 20));
    file.take((1 << 28) + 1).read_to_end(&mut all).or_else(|_| fault(3, "read"))?;
    Ok(all)
}

pub(crate) fn decode(options: &Options) -> Answer<(i32, String)> {
    let early = options.choice("early", &["no", "yes"])? == 1;
    let mut input = Input::new()?;
    let head = Header::read(input.take(HEADER)?)?;
    let plan = Plan::new(&head, true)?;
    let mut store = Store::new(head.e, vec![0; plan.symbols * head.e]);
    let start = |&(code, place): &(usize, Place)| Block::new(&plan.codes[code], place);
    let mut blocks: Vec<Block> = plan.blocks.iter().map(start).collect();
    let packets = take_packets(&mut input, &plan, &mut blocks, &mut store, early)?;
    let (mut report, mut status) = (String::new(), 0);
    for (number, (block, &(code, _))) in blocks.iter().zip(&plan.blocks).enumerate() {
        report += &format!("block {number} ");
        match block.finish(&plan.codes[code], &mut store) {
            Verdict::Peeled => report += "peeled\n",
            Verdict::Solved => report += "solved\n",
            Verdict::Undetermined(word) => {
                report += "undetermined";
                word.iter().for_each(|column| report += &format!(" {column}"));
                report += "\n";
                status = status.max(8);
            }
            Verdict::Contradicted => {
                report += "contradicted\n";
                status = 9;
            }
        }
    }
    report += &format!("packets {packets}\n");
    if status == 0 {
        let mut output = file(io::stdout().as_fd(), 4, "write")?;
        output.write_all(&store.all[..head.length]).or_else(|_| fault(4, "write"))?;
    }
    Ok((status, report))
}

/// Hands each packet to its block, and tells each 1,000th symbol that is rebuilt. Answers the
/// number of packets.
pub(crate) fn take_packets(
    input: &mut Input,
    plan: &Plan,
    blocks: &mut [Block],
    store: &mut Store,
    early: bool,
) -> Answer<usize> {
    let (mut missing, mut rebuilt, mut packets) = (plan.sources, 0, 0);
    while !(early && missing == 0) {
        let packet = input.take(4 + store.e)?;
        if packet.is_empty() {
            break;
        }
        if packets == 1 << 24 {
            return fault(7, "limit packets");
        }
        if packet.len() < 4 + store.e {
            return fault(5, format!("packet {packets} short {}", packet.len()));
        }
        let (id, symbol) = packet.split_at(4);
        let id = u32::from_be_bytes(id.try_into().unwrap()) as usize;
        let (number, column) = (id >> 20, id & 0xfffff);
        if number >= blocks.len() {
            return fault(5, format!("packet {packets} block {number}"));
        }
        let (block, code) = (&mut blocks[number], &plan.codes[plan.blocks[number].0]);
        if column >= code.n {
            return fault(5, format!("packet {packets} symbol {column}"));
        }
        missing -= block.missing;
        let told = rebuilt / 1000;
        rebuilt += block.arrive(code, store, column, symbol);
        missing += block.missing;
        for line in told + 1..=rebuilt / 1000 {
            if !tell(&format!("rebuilt {}\n", line * 1000)) {
                return fault(10, "watch");
            }
        }
        packets += 1;
    }
    Ok(packets)
}

pub(crate) fn perf(options: &Options) -> Answer<(i32, String)> {
    let shape = Shape::read(options)?;
    let k = options.number("k", 1, 65536, 1000)?;
    let n = options.number("n", k, 65536, (k * 3 / 2).min(65536))?;
    let e = options.number("symbol", 1, 65535, 16)?;
    let runs = options.number("runs", 1, 1000, 1)?;
    let mut draws = Draws::new(options.number("run-seed", 1, 2147483646, 1)?);
    let (loss, sent) = (options.loss()?, options.choice("order", &["random", "sent"])? == 1);
    if n * e > 1 << 28 {
        return fault(7, "limit block-bytes");
    }
    let (code, place) = (Code::new(k, n, shape), Place::new(k, e, 0, k));
    let mut word = Store::new(e, vec![0; n * e]);
    word.all[..k * e].fill_with(|| draws.below(256) as u8);
    code.fill(&mut word, place);
    let name = if shape.triangle { "triangle" } else { "staircase" };
    let (entries, used) = (code.rows.items.len(), code.draws);
    let mut output = file(io::stdout().as_fd(), 4, "write")?;
    let mut line = |text: String| output.write_all(text.as_bytes()).or_else(|_| fault(4, "write"));
    line(format!("code {name} k {k} n {n} entries {entries} draws {used}\n"))?;
    let (mut store, mut block) = (Store::new(e, vec![0; n * e]), Block::new(&code, place));
    let mut counts = [0; 3];
    for run in 1..=runs {
        let kept = kept(n, sent, &loss, &mut draws);
        block.restart(&code);
        let arrive = |&column: &u16| {
            let column = column as usize;
            block.arrive(&code, &mut store, column, &word.all[column * e..][..e]);
            block.missing == 0
        };
        let needed = kept.iter().position(arrive).map_or("none".into(), |at| (at + 1).to_string());
        let (ending, verdict) = match block.finish(&code, &mut store) {
            Verdict::Peeled => (0, "peeled"),
            Verdict::Solved => (1, "solved"),
            _ => (2, "undetermined"),
        };
        counts[ending] += 1;
        line(format!("run {run} kept {} needed {needed} {verdict}\n", kept.len()))?;
    }
    let [peeled, solved, open] = counts;
    line(format!("runs {runs} peeled {peeled} solved {solved} undetermined {open}\n"))?;
    Ok((0, String::new()))
}

/// The symbols of a run that are kept, in the order in which they are sent.
pub(crate) fn kept(n: usize, sent: bool, loss: &Loss, draws: &mut Draws) -> Vec<u16> {
    let mut order: Vec<u16> = (0..n).map(|column| column as u16).collect();
    if !sent {
        draws.shuffle(&mut order);
    }
    match *loss {
        Loss::First(count) => order.drain(..count.min(n)).for_each(drop),
        Loss::Even(chance) => order.retain(|_| draws.below(1000) >= chance),
    }
    order
}
