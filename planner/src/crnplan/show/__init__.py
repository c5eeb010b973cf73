"""Shows figures to a person: tables, texts, pages, pictures and workbooks."""
