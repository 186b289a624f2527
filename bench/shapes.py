"""Inputs of any size for the scripts beside this file, each a function from a size in bytes to the bytes."""


def repeated(piece, head=b"", tail=b""):
    """The inputs of a piece again and again, between a head and a tail, by their size."""
    return lambda size: head + piece * ((size - len(head) - len(tail)) // len(piece)) + tail


def distinct_names(front):
    """One tag with this front, and as many distinct attribute names as there is room for."""

    def tag(size):
        names = "".join(f" {number:x}" for number in range(size // 5))
        return (front + names)[: size - 1].encode() + b">"

    return tag


def numbered(piece):
    """A piece again and again, each with its number."""
    return lambda size: b"".join(piece % number for number in range(size // (len(piece) + 4)))[:size]


def declarations(size):
    """One style that sets one property again and again."""
    return b"<p style='" + b"color:red;" * ((size - 20) // 10) + b"'>x"


ARTICLE = """<h2>How the {0}th loaf was baked</h2>
<p class="lead">Flour, water, salt &amp; time: that is all there is to it, and each of them <em>matters</em>.</p>
<!-- the editor's note of article {0} -->
<p>Mix them <b>well</b>, and let the dough rest for <a href="http://bread.example/{0}?rest=long">a whole night</a>.
It grows by half; a warm room makes it faster, a cold one better.</p>
<ul>
<li>500 g of flour</li>
<li>350 g of water</li>
<li>10 g of salt</li>
</ul>
<p><img src="/loaves/{0}.jpg" alt="loaf {0}" /> The crust should sing when it cools.<br />Don&#8217;t cut it before.</p>
<blockquote><p>&ldquo;Bread is a matter of waiting,&rdquo; said the miller.</p></blockquote>
"""


def articles(size):
    """A page of articles, as people write them: a tag for some fifty bytes."""
    count = size // len(ARTICLE) + 1
    return "".join(ARTICLE.format(number) for number in range(count)).encode()[:size]


# What a page or an attacker may send, each for what it strains.
KINDS = {
    "plain ASCII": repeated(b"the quick brown fox "),
    "a page of articles": articles,
    "broken UTF-8": repeated(b"\xc3(\xff\xe2\x82"),
    "bytes that are never UTF-8": repeated(b"\xff"),
    "carriage returns": repeated(b"\r"),
    "two-byte characters": repeated("é".encode()),
    "ampersands": repeated(b"&"),
    "references to nothing": repeated(b"&#1;"),
    "ampersands and a letter": repeated(b"&a"),
    "named references": repeated(b"&copy;"),
    "references to a sign of markup": repeated(b"&lt;"),
    "a long run of digits": repeated(b"1", head=b"&#"),
    "greater-than signs": repeated(b">"),
    "paragraphs": repeated(b"<p>a"),
    "end tags that close nothing": repeated(b"</p>"),
    "line breaks": repeated(b"<br>"),
    "line breaks as empty tags": repeated(b"<br />"),
    "comments": repeated(b"<!---->"),
    "comments in a comment": repeated(b"<!--"),
    "less-than signs": repeated(b"<"),
    "scripts in a script": repeated(b"<script"),
    "end marks in a script": repeated(b"</scrip", head=b"<script>"),
    "one long value": repeated(b"x", head=b"<a b='", tail=b"'>"),
    "distinct attribute names": distinct_names("<font"),
    "distinct names and an alignment": distinct_names("<p align=center"),
    "one attribute name again": repeated(b" b", head=b"<font", tail=b">"),
    "one attribute a tag": repeated(b"<p title=x>a"),
    "two attributes a tag": repeated(b"<a b=c d=e>"),
    "four attributes a tag": repeated(b"<a b=c d=e f=g h=i>"),
    "values without quotes": repeated(b"<a b="),
    "quotes in a tag": repeated(b'"', head=b"<a ", tail=b">"),
    "bold texts": repeated(b"<b>a</b>"),
    "elements that are unknown": repeated(b"<blink>a"),
    "texts that are joined": repeated(b"a<!>"),
    "fonts": repeated(b"<font color=red size=7>a</font>"),
    "a font with a long style": repeated(b"x", head=b"<font color=red style='", tail=b"'>"),
    "centred texts": repeated(b"<center>a</center>"),
    "end tags that close nothing, 128 deep": repeated(b"</p>", head=b"<div>" * 128),
    "start tags without a place, 128 deep": repeated(b"<li>", head=b"<div>" * 128),
    "formatting that never fits": repeated(b"a</p>", head=b"<big>" * 128 + b"<pre>"),
    "bold before a letter": repeated(b"<b>", tail=b"x"),
    "bold that is carried": repeated(b"<p>x", head=b"<b>" * 100),
    "cells without rows": repeated(b"<td>a", head=b"<table>"),
    "nested lists": repeated(b"<ul>a"),
    "lists without items": repeated(b"<ul></ul>"),
    "rows of a table": repeated(b"<tr><td>a", head=b"<table>"),
    "rows and bodies in turn": repeated(b"<tr><td>a<tbody><tr><td>b</tbody>", head=b"<table>"),
    "surplus heads": repeated(b"<thead><tr><td>a</thead>", head=b"<table>"),
    "surplus captions": repeated(b"<caption>a</caption>", head=b"<table>"),
    "distinct ids": numbered(b"<p id=i%d>"),
    "one id again": repeated(b"<p id=i>"),
    "distinct classes in a class": lambda size: b"<p class='" + numbered(b"c%d ")(size - 12) + b"'>",
    "links": repeated(b"<a href=/a>b</a>"),
    "links that don't pass": repeated(b"<a href=javascript:b>c</a>"),
    "pictures": repeated(b"<img src=a>"),
    "one long URI": repeated(b"%20", head=b"<a href='/", tail=b"'>b"),
    "one path of dot segments": repeated(b"../", head=b"<a href='", tail=b"'>b"),
    "one path of short segments": repeated(b"a/", head=b"<a href='", tail=b"'>b"),
    "declarations of one property": declarations,
    "styles": repeated(b"<b style=color:red>a</b>"),
    "parentheses in a style": repeated(b"(", head=b"<p style='color:", tail=b"'>x"),
    "families in a style": repeated(b"a,", head=b"<p style='font-family:", tail=b"'>x"),
    "braces in a sheet": repeated(b"{", head=b"<style>"),
    "parentheses in a sheet": repeated(b"(", head=b"<style>b{color:"),
    "commas in a sheet": repeated(b"a,", head=b"<style>", tail=b"{color:red}"),
    "at signs in a sheet": repeated(b"@", head=b"<style>"),
    "quotes in a sheet": repeated(b"\"'", head=b"<style>"),
    "rules in a sheet": repeated(b"b{color:red}", head=b"<style>"),
    "comments in a sheet": repeated(b"/*", head=b"<style>b"),
    "tables in tables": repeated(b"<table><tr><td>a"),
    "a run without an address": repeated(b"a"),
    "prefixes of addresses": repeated(b"http://"),
    "addresses": repeated(b"http://a.example/b "),
    "short addresses": repeated(b"ftp://a "),
    "colons": repeated(b"a: "),
    "line feeds": repeated(b"\n"),
    "lines and blank lines": repeated(b"a line of a letter\n\n"),
    "letters and blank lines": repeated(b"a\n\n"),
    "bold and blank lines": repeated(b"<b>a</b>\n\n"),
    "good paragraphs": repeated(b"<p></p>"),
    "good line breaks": repeated(b"<br />"),
    "good items": repeated(b"<li>a</li>", head=b"<ul>", tail=b"</ul>"),
    "good rows": repeated(b"<tr><td>a</td></tr>", head=b"<table>", tail=b"</table>"),
    "good links": repeated(b'<a href="/a">b</a>'),
    "good ids": lambda size: b"".join(b'<p id="i%07d"></p>' % number for number in range(size // 22)),
    "good styles": repeated(b'<b style="color:#ff0000;">a</b>'),
    "good escapes": repeated(b"&amp;"),
}

# Kinds that are good fragments, beside those that say so.
GOOD = {
    "plain ASCII",
    "two-byte characters",
    "references to a sign of markup",
    "line breaks as empty tags",
    "bold texts",
    "centred texts",
    "a run without an address",
    "prefixes of addresses",
    "addresses",
    "short addresses",
    "colons",
    "line feeds",
    "lines and blank lines",
    "letters and blank lines",
    "bold and blank lines",
}


def status_of(name, words):
    """The status that the program ends with on a kind, with these words: of a check, under settings that permit ids."""
    if "--check" not in words or name.startswith("good") or name in GOOD:
        return 0
    return 4 if name == "lists without items" else 3


# The most bytes that a kind may hold for one of its input, where that isn't 50. Where blank lines make paragraphs, `a` and two line
# feeds are an element, a text in it and a text behind it: three bytes of which the tree alone takes 240.
HELD = {
    "a page of articles": 16,
    "letters and blank lines": 90,
}
