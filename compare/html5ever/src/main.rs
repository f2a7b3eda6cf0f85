//! `parse-page PAGE`: reads the page, parses it once with html5ever into its tree of nodes (scripting off), and prints how many
//! bytes it had. The tree isn't given back to the allocator, so the time is that of reading alone.
use html5ever::driver::ParseOpts;
use html5ever::tendril::TendrilSink;
use html5ever::tree_builder::TreeBuilderOpts;
use html5ever::parse_document;
use markup5ever_rcdom::RcDom;

fn main() {
    let path = std::env::args_os().nth(1).expect("usage: parse-page PAGE");
    let page = std::fs::read(path).expect("the page can be read");
    let options = ParseOpts {
        tree_builder: TreeBuilderOpts { scripting_enabled: false, ..Default::default() },
        ..Default::default()
    };
    let tree = parse_document(RcDom::default(), options).from_utf8().one(page.as_slice());
    println!("{} bytes, {} children", page.len(), tree.document.children.borrow().len());
    std::mem::forget(tree);
}
