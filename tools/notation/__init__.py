"""The notation for Sunday scripts: records and answers in words, and back; why, and as a picture.

    words       fields, messages, settings, records, answers, script
    mistakes    slips (what was meant), files (what a file is)
    stored      compare (a text held against what a program read and printed)
    reasons     follow (what an end holds), figures (what the rules compare), why (the words), play
    picture     times, marks, drawing, lanes, look, summary, page (for a browser), sheet (for a document)
    command     arguments, command
"""
