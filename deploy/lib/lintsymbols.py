"""What lint says of symbols: of the discs of a smoothed map, and of the names in styles (docs/MAPFILE.md, "Symbols")."""
import keywords
import mapfile


class Symbols:
    """The part of a linter that looks at symbols. The linter gives it tokens, and takes what differs."""

    def reads_disc(self, block, word):
        """Whether a keyword is one that a SYMBOL has in a smoothed map alone: the CONFIG stands before it."""
        return block == "SYMBOL" and self.sizes.factor > 1 and word in keywords.DISC_COUNTS

    def choices(self, key):
        """The words that a keyword takes; none of one that takes other values."""
        found = keywords.DISC_CHOICES.get(key) if self.sizes.factor > 1 else None
        return (found or keywords.CHOICES.get(key, "")).split()

    def disc_keyword(self, token, said):
        """Reads POINTS or FILLED of a SYMBOL, and what follows it."""
        word, value = token.text.upper(), self.peek()
        if word == "POINTS":
            self.disc_points()
            said[word] = token
        elif value is None or value.is_end():
            self.differs(value.line if value else self.last_line, f"{word} has too few values: it takes 1")
        else:
            said[word] = self.token()
            self.check_values("SYMBOL", word, [value])

    def disc_points(self):
        """Reads the POINTS of a disc up to END: 1 and 1."""
        values = []
        while not (token := self.token()).is_end():
            values.append(token)
        ones = [value.is_value() and mapfile.millionths(value.text) == 1 for value in values]
        wrong = next((value for at, (value, is_one) in enumerate(zip(values, ones)) if at > 1 or not is_one), None)
        if wrong:
            self.refused(wrong, "POINTS", "1 and 1 in a SYMBOL", keywords.PIXMAP)
        elif len(values) < 2:
            self.differs(token.line, "POINTS has too few values: it takes 1 and 1")

    def is_disc(self, block, said):
        """Whether a block is a SYMBOL that is a disc, by its last TYPE."""
        return block == "SYMBOL" and self.sizes.factor > 1 and "TYPE" in said and said["TYPE"].text.upper() == "ELLIPSE"

    def required(self, block, said):
        """The keywords that a block must have at its END."""
        return keywords.DISC_REQUIRED if self.is_disc(block, said) else keywords.REQUIRED.get(block, [])

    def close_symbol(self, said):
        """Looks at a SYMBOL at its END."""
        if "NAME" in said:
            self.symbols.add(said["NAME"].text)
        if self.is_disc("SYMBOL", said):
            self.has_disc = True
            if "IMAGE" in said:
                self.differs(said["IMAGE"].line, "a SYMBOL of TYPE ELLIPSE has an IMAGE, and a disc has no file: leave it out, or write TYPE PIXMAP")
            return
        for word in keywords.DISC_COUNTS:
            if word in said and "IMAGE" in said:
                self.has_no_effect(said[word].line, word)

    def unsmoothed_discs(self):
        """Reports a factor of 1 that counts at the END of a map with a disc."""
        if self.has_disc and self.sizes.factor == 1:
            self.differs(self.sizes.given.line, 'a map with a disc is smoothed, and CONFIG "WMS_SMOOTHING" is 1 here: write 2, 3 or 4, or draw the SYMBOL of TYPE ELLIPSE as a pixmap')

    def missing_symbols(self):
        """Reports the symbols that no SYMBOL has as its NAME."""
        for symbol in self.wanted:
            if symbol.text in self.symbols or symbol.text == "0":
                continue
            instead = "write the NAME of a SYMBOL that stands in the mapfile"
            if symbol.text.isdigit():
                instead = "MapServer counts its symbols by it; write the NAME of one"
            elif symbol.text.startswith("["):
                instead = keywords.PER_CLASS
            self.differs(symbol.line, f"{symbol} names no symbol of MAP: {instead}")
