"""`image` and `table`: registers and tables as text that can be edited, and back."""

from ..editing import image_of, image_text, table_of, table_text
from ..errors import BadWords
from ..files import write_beside
from ..host import Host, Table
from ..incoming import MOST_TEXT, read_file
from .output import Answer
from .planned import add_text
from .words import only_host


class ImageText:
    """The subcommand `image`."""

    @staticmethod
    def arguments(parser) -> None:
        parser.add_argument("words", nargs="*", metavar="HOST")
        parser.add_argument("--reset", action="store_true", help="registers as after reset")
        back(parser, "the host's image with the decoders of a text")

    @staticmethod
    def answer(options) -> Answer:
        host = only_host(options.words, options)
        if options.text is None:
            if host.image is None:
                host = Host(host.table.data, host.topology.data, image_of(host, ""), host.name)
            return add_text(Answer({"host": host.name, "text": image_text(host)}), image_text(host))
        made = image_of(host, text_of(options.text))
        return kept(options, made, Answer({"host": host.name, "file": options.to}))


class TableText:
    """The subcommand `table`."""

    @staticmethod
    def arguments(parser) -> None:
        parser.add_argument("words", nargs="*", metavar="CEDT")
        back(parser, "the table of a text")

    @staticmethod
    def answer(options) -> Answer:
        if options.text is not None:
            if options.words:
                raise BadWords(f"{options.words[0]}: one word too many; see cxldesk table --help", 1, "extra")
            made = table_of(text_of(options.text))
            return kept(options, made, Answer({"file": options.to}))
        if len(options.words) != 1:
            raise BadWords("wanted is CEDT, or --from TEXT --to FILE; see cxldesk table --help", 1, "usage")
        text = table_text(Table(read_file(options.words[0]), options.words[0]))
        return add_text(Answer({"table": options.words[0], "text": text}), text)


def back(parser, what: str) -> None:
    parser.add_argument("--from", metavar="TEXT", dest="text", help=f"makes {what}; - is standard input")
    parser.add_argument("--to", metavar="FILE", help="the file to make")


def text_of(file: str) -> str:
    """An edited text; what is no text of a line is found there."""
    return read_file(file, MOST_TEXT).decode(errors="replace")


def kept(options, made: bytes, said: Answer) -> Answer:
    if options.to is None:
        raise BadWords("--from wants --to FILE, the file to make", 1, "usage")
    write_beside(options.to, made)
    return said
