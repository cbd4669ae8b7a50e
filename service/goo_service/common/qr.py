"""QR codes, as rows of 0 and 1: the page draws them, and so does a PDF."""
import segno


def rows_of(text: str) -> list[str]:
    """The rows of the QR code of a text, 1 where it is dark."""
    made = segno.make_qr(text, error='m')
    return [''.join(map(str, row)) for row in made.matrix]
