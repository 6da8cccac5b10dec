"""What the tools share. The tools convert Ecore models and XMI instances from and to documents of the repository, and draw both."""
