"""What is made of answers for people to look at: pages and pictures. Every chance, interval and verdict in them is from a printed report."""
