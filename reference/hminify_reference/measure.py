"""The page that `measure` makes of a number and a size."""

BLOCKS = ("<p>Item K &amp; more</p>", "<ul><li>K</li><li>two</li></ul>",
          "<table><tr><td>K</td></tr></table>", '<p title="a b">K</p>')


def page_of(number, size):
    x = number % (1 << 31)
    out = ["<!doctype html><title>%d</title>\n" % number]
    for k in range(1, size + 1):
        x = (x * 1103515245 + 12345) % (1 << 31)
        out.append(BLOCKS[x // 65536 % 4].replace("K", str(k)) + "\n")
    return "".join(out).encode("ascii")
