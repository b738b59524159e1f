"""An independent retelling of JSON-LD 1.1 expansion and flattening.

One file for each concern:

    keywords    the keywords, and the form of a keyword
    refusals    the error codes and the exception that carries one
    reading     JSON text, the gate on numbers, the mark 1.1
    iris        form of an IRI, well-formed IRIs, resolution
    folder      the folder of contexts
    contexts    active contexts and term definitions
    processing  context processing, term creation, IRI expansion
    values      value expansion, adding a value
    expansion   the expansion algorithm
    places      places of errors, as JSON Pointers
    printing    compact JSON
    node_map    node map generation
    flattening  flattening, and the lists that are plain
    command     the words of a command line, and the answer to them

"API" in the files is the W3C Recommendation "JSON-LD 1.1 Processing
Algorithms and API".  A sentence in brackets that begins with "Ours" is a
choice of this project, where the Recommendation says something else, says
nothing, or leaves a choice.
"""
