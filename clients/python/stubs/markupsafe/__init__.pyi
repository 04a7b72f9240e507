"""What elephant.browse uses of markupsafe."""

class Markup(str):
    def format(self, *args: object, **kwargs: object) -> "Markup": ...
