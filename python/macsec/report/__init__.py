"""The report of macsec-report, one HTML file with pictures of a link. `judging` asks the library, `drawn` keeps what is
drawn of each frame, and `page` writes the file from page.html, page.css and the scripts beside it."""
