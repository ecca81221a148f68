;;; typst-lsp-mode.el --- Starts the server for Typst in lsp-mode, and colours tokens -*- lexical-binding: t -*-

(require 'lsp-mode)
(require 'lsp-semantic-tokens)
(setq lsp-semantic-tokens-enable t)
(add-to-list 'lsp-language-id-configuration '(typst-mode . "typst"))
(lsp-register-client
 (make-lsp-client :new-connection (lsp-stdio-connection "typst_lsp")
                  :activation-fn (lsp-activate-on "typst")
                  :server-id 'typst_lsp))
(dolist (pair '(("heading" . bold) ("strong" . bold) ("emph" . italic) ("link" . link)
                ("raw" . font-lock-string-face) ("ref" . font-lock-constant-face)
                ("marker" . font-lock-builtin-face) ("term" . font-lock-type-face)
                ("delimiter" . font-lock-builtin-face) ("escape" . font-lock-builtin-face) ("error" . error)))
  (add-to-list 'lsp-semantic-token-faces pair))
(add-hook 'typst-mode-hook #'lsp)
;; Else Emacs indents a new line before the server's next item of a list comes, which lsp-mode then drops.
(add-hook 'typst-mode-hook (lambda () (electric-indent-local-mode -1)))
