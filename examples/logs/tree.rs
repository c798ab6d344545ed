//! Work goes down a tree of threads, and each reports to process 0 when it is passive. Process P logs to pP.rows.
use std::sync::mpsc::{channel, Receiver, Sender};
use std::{fs::File, io::Write, thread};

const LAST: usize = 7;

fn logger(p: usize) -> impl FnMut(&str, usize) {
    let mut log = File::create(format!("p{p}.rows")).unwrap();
    move |kind, channel| writeln!(log, "{p},{kind},{channel}").unwrap()
}

fn process(p: usize, inbox: Receiver<usize>, mail: Vec<Sender<usize>>) {
    let mut row = logger(p);
    inbox.recv().unwrap();
    row("receive", p);
    for child in (2 * p..2 * p + 2).filter(|&it| it <= LAST) {
        row("send", child);
        mail[child].send(p).unwrap();
    }
    row("passive", 0);
    row("tell", p);
    mail[0].send(p).unwrap();
}

fn main() {
    let (mail, inboxes): (Vec<_>, Vec<_>) = (0..=LAST).map(|_| channel()).unzip();
    let mut inboxes = inboxes.into_iter();
    let signals = inboxes.next().unwrap();
    for (p, inbox) in (1..).zip(inboxes) {
        let mail = mail.clone();
        thread::spawn(move || process(p, inbox, mail));
    }
    let mut row = logger(0);
    row("active", 0);
    row("send", 1);
    mail[1].send(0).unwrap();
    row("passive", 0);
    for p in signals.iter().take(LAST) {
        row("hear", p);
    }
    row("over", 0);
}
