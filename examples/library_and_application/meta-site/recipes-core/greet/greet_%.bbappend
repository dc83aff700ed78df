TEXT:append = " world"
