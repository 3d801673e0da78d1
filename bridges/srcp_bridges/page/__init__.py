"""Services for people: the page, phones and a broker's topics, and who may see and command them."""
