"""How cases are made.

    alphabet    names and values
    maker       random contexts and documents
    documents   random cases, and changes to good documents
    sentences   documents around one part of the algorithms each
    nodes       documents around node maps
    farther     documents with many items, labels and nests, odd bases and keys
    errors      a few ways to each error code
    outside     cases of bytes, words and folders
"""
